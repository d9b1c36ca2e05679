/* signals.c: how signals meet the calls of a thread. */
#ifndef KL_SIGNALS_H
#define KL_SIGNALS_H

#include "thread.h"

/* A call of the proved library stands between these two. If a signal interrupted another one of
 * the thread the first answers 0, and nothing of the library may be touched until that one ends.
 * One that does not only read says so. */
int kl_core_begins(thread_state *t);
static inline void kl_core_changes(thread_state *t) { t->signals.depth = KL_CORE_CHANGES; }
static inline void kl_core_rests(thread_state *t) { t->signals.depth = KL_CORE_READS; }
void kl_core_ends(thread_state *t);
/* So that signals wait while the thread begins. */
void kl_look_for_handlers(void);
/* A jump left a call of the thread, which may have no state. */
void kl_signals_were_left(thread_state *t);
/* So does what other functions change. */
void kl_change_begins(void);
void kl_change_ends(void);

#endif
