/* codes.c: the codes of events, which the process has for all threads. */
#ifndef KL_CODES_H
#define KL_CODES_H

#include "thread.h"

#include <stdint.h>

/* Inward: the code of the thread's library for a code of the process. Outward: back.
 * PAPI_ENOMEM. */
int kl_code_inward(thread_state *t, int code, uint32_t *own);
int kl_code_outward(thread_state *t, uint32_t own, int *code);
int kl_note(uint32_t **numbers, uint32_t *count, uint32_t at, uint32_t number);
void kl_drop_codes(thread_state *t);
void kl_forget_codes(void);

#endif
