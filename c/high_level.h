/* What the rest of the library asks of rates and of the regions of the high level. */
#ifndef KL_HIGH_LEVEL_H
#define KL_HIGH_LEVEL_H
/* rates.c, high_level.c: whether a rate or regions are counted in the calling thread. */
int kl_rate_runs(void);
int kl_begin_library(void);
int kl_high_level_runs(void);
/* The thread ends: no set of a rate or of its regions is left. Its regions are no longer touched
 * but by the end of the process. */
void kl_rate_ends(void);
void kl_regions_end(void);

#endif
