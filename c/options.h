/* options.c: what PAPI_set_opt and the environment choose. */
#ifndef KL_OPTIONS_H
#define KL_OPTIONS_H

#include <stdatomic.h>
#include <stdint.h>

extern atomic_uint kl_step;
int kl_default_domain(uint32_t component);
int kl_options_begin(void);

#endif
