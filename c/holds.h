/* holds.c: calls that go on after a function of the user. */
#ifndef KL_HOLDS_H
#define KL_HOLDS_H

#include "thread.h"

/* A call goes on from `kl_hold_on`, which gives its place among those of the thread, to
 * `kl_let_go`, which answers PAPI_ENOINIT if the library has ended in the meantime. */
#define KL_HOLD(is_handler) { __builtin_dwarf_cfa(), __builtin_return_address(0), is_handler }
int kl_hold_on(thread_state *t, const kl_hold *hold);
int kl_let_go(thread_state *t, int place);
/* Whether a call goes on still, or was left by a jump or an exception. */
int kl_goes_on_still(const kl_hold *hold);
/* Whether the thread is in the handler of a signal that has a stack of its own, which may lie
 * above that of the thread. */
int kl_on_another_stack(void);
void kl_forget_jumps(thread_state *t);
/* Whether a handler of the thread runs: time stands. */
int kl_in_handler(thread_state *t);

#endif
