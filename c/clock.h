/* time.c: the rate of the clock, and whose time it shows. */
#ifndef KL_CLOCK_H
#define KL_CLOCK_H

#include <stdbool.h>
#include <stdint.h>

uint32_t kl_mhz(void);
int kl_time_begins(void);
bool kl_is_model_time(void);

#endif
