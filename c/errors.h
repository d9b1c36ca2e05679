/* errors.c: what a refused call leaves, and who is told of it. */
#ifndef KL_ERRORS_H
#define KL_ERRORS_H

#include "papi.h"

int kl_refuse(int code);
int kl_get_debug(PAPI_debug_option_t *debug);
int kl_set_debug(const PAPI_debug_option_t *debug);

#endif
