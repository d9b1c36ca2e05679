/* counting.c: how time goes on, and what a set has counted. */
#ifndef KL_COUNTING_H
#define KL_COUNTING_H

#include "thread.h"

#include <stdint.h>

/* The thread goes on by up to n occurrences. */
int kl_go(thread_state *t, uint32_t n, uint32_t *went);
/* What happens before a call that reads. */
int kl_goes_on(thread_state *t);
/* What PAPI_read does in a call of another function. */
int kl_read(int set, long long *values);

#endif
