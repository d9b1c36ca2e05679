/* environment.c: the variables that the program was started with. */
#ifndef KL_ENVIRONMENT_H
#define KL_ENVIRONMENT_H

#include <stdint.h>

const char *kl_variable(const char *name);
int kl_number_named(const char *variable, uint32_t least, uint32_t most, uint32_t *value);

#endif
