/* Holds: calls that go on after a function of the user.
 *
 * In the midst of a call the library calls functions of the user: a handler of thresholds
 * (overflow.c), and the function that gives a thread's id (threads.c). Such a function may make
 * each call, may end the library, and may jump out: by longjmp, or by an exception of C++. The
 * calls that it stands in hold the thread's state, as do the call in which time goes on
 * (counting.c) and the one that hands over what a counted program did (live_counts.c), since both
 * look at the state after their handlers. The handler of errors (errors.c) has a hold of its own,
 * since it is called without a state too.
 *
 * The invariant. `holds` of a thread are the calls that hold, the outermost first. Each is known by
 * where its part of the stack ends and where it returns to, and stands in the state and not on the
 * stack, of which a jump leaves nothing. Each goes on, or was left by a jump that nobody has seen
 * yet; those behind the first MOST_HOLDS are only counted. A state that its thread leaves while
 * calls hold it (`has_left`) is closed by the last of them that lets go.
 *
 * The order. kl_hold_on takes away those that can't stand any more: a stack grows down, so on it no
 * call that goes on ends as low as one that begins now. Then it notes its hold, before it is
 * counted and once more after that, as a handler of a signal may have had the place in between. The
 * function of the user is called. kl_let_go takes away the hold with all behind it, and closes the
 * state if the thread has left it.
 *
 * A jump passes by kl_let_go, and its hold stays. Whoever asks next for what depends on it, whether
 * time stands (kl_in_handler) or whether the state may be closed (kl_leaves), first takes away the
 * last ones that were left (kl_forget_jumps). Whether a call goes on is told by unwinding: its
 * caller has to be on the way up, at the same place of the stack and of the code. Where the way
 * ends too early, at a function without unwind tables, the call has to lie above that, and its
 * return address has to stand still where its part of the stack ends.
 *
 * This may be promised (docs/C_PROGRAMS.md, Handlers) since no function of the user is called under
 * a lock or while the core works: what a jump leaves for the library to find is a hold. */
#define _GNU_SOURCE
#include "holds.h"
#include "papi.h"
#include "process.h"
#include "thread.h"

#include <signal.h>
#include <stdatomic.h>
#include <stddef.h>
#include <stdint.h>
#include <unwind.h>

int kl_on_another_stack(void) {
    stack_t stack;
    return sigaltstack(NULL, &stack) == 0 && stack.ss_flags & SS_ONSTACK;
}

/* A stack grows down: of those that stand no higher than this one each was left. */
int kl_hold_on(thread_state *t, const kl_hold *hold) {
    int place = t->hold_count;
    while (place > 0 && place <= MOST_HOLDS &&
           (uintptr_t)t->holds[place - 1].end <= (uintptr_t)hold->end && !kl_on_another_stack())
        place--;
    if (place < MOST_HOLDS) t->holds[place] = *hold;
    t->hold_count = place + 1;
    atomic_signal_fence(memory_order_seq_cst);
    /* A handler of a signal may have had the place in between. */
    if (place < MOST_HOLDS) t->holds[place] = *hold;
    return place;
}

/* With it go those that were left by a jump since. */
int kl_let_go(thread_state *t, int place) {
    int ended = t->has_left || t->generation != atomic_load(&kl_generation);
    t->hold_count = place;
    if (!t->hold_count && t->has_left) kl_close_state(t);
    return ended ? PAPI_ENOINIT : PAPI_OK;
}

typedef struct { const kl_hold *hold; uintptr_t reached, place; int is_found; } search;

/* The caller of the function that holds is found by the place where its own part of the stack ends,
 * and by where it goes on. A handler of a signal may have another stack, above or below. */
static _Unwind_Reason_Code look(struct _Unwind_Context *frame, void *data) {
    search *s = data;
    s->reached = _Unwind_GetCFA(frame);
    s->place = _Unwind_GetIP(frame);
    s->is_found =
        s->reached == (uintptr_t)s->hold->end && s->place == (uintptr_t)s->hold->returns_to;
    return s->is_found ? _URC_END_OF_STACK : _URC_NO_REASON;
}

/* The way up ends at the place 0, or before at a function of the program without unwind tables.
 * Then the end of the call's own part of the stack tells: where it returns to stands there. */
static int stands_still(const kl_hold *hold) {
#if defined __x86_64__
    return ((void *const *)hold->end)[-1] == hold->returns_to;
#else
    (void)hold;
    return 1;
#endif
}

/* A stack grows down: a function that goes on stands above those that it calls. */
int kl_goes_on_still(const kl_hold *hold) {
    search s = { hold, 0, 0, 0 };
    const uintptr_t end = (uintptr_t)hold->end;
    _Unwind_Backtrace(look, &s);
    if (s.is_found || !s.place) return s.is_found;
    return ((end >= (uintptr_t)__builtin_frame_address(0) && end >= s.reached) ||
            kl_on_another_stack()) &&
           stands_still(hold);
}

void kl_forget_jumps(thread_state *t) {
    while (t->hold_count > 0 && t->hold_count <= MOST_HOLDS &&
           !kl_goes_on_still(&t->holds[t->hold_count - 1]))
        t->hold_count--;
}

int kl_in_handler(thread_state *t) {
    if (!t->hold_count) return 0;
    kl_forget_jumps(t);
    for (int i = 0; i < t->hold_count && i < MOST_HOLDS; i++)
        if (t->holds[i].is_handler) return 1;
    return 0;
}
