/* live.c: what the rest of the library asks of the tool that counts a program while it runs
 * (tools/valgrind; docs/RECORDING.md). Without the tool nothing here does anything. */
#ifndef KL_LIVE_H
#define KL_LIVE_H

#include "thread.h"

#include <stdint.h>

/* Whether the program runs under the tool. Then the outermost call enters, and leaves. A thread's
 * part opens with its library. */
extern int kl_runs_live __attribute__((visibility("hidden")));
static inline int kl_is_live(void) { return kl_runs_live; }
int kl_live_opens(thread_state *t);
void kl_live_closes(thread_state *t);
void kl_live_enters(void);
void kl_live_leaves(int may_start_or_stop);
/* The calling thread's cycles, or those of all threads. */
uint64_t kl_live_cycles(int of_all);

#endif
