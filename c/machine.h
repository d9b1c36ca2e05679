/* The modelled machine. */
#ifndef KL_MACHINE_H
#define KL_MACHINE_H

#include "papi.h"

/* machine.c */
void kl_machine_ends(void);

/* hierarchy.c: judges the caches that the environment names, and fills them in. */
int kl_judge_hierarchy(void);
void kl_take_hierarchy(PAPI_mh_info_t *into);

#endif
