/* process.c: the library that the process has begun. */
#ifndef KL_PROCESS_H
#define KL_PROCESS_H

#include "files.h"

#include <stdatomic.h>

/* The generation is the number of the library that is begun, and 0 if none is. */
extern atomic_uint kl_generation;
static inline int kl_is_open(void) { return atomic_load(&kl_generation) != 0; }
kl_files *kl_hold_files(void);
void kl_release_files(kl_files *held);

#endif
