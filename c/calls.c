/* The calls of each thread: where the outermost one enters, and where it leaves.
 *
 * The invariant. `end` of a thread is NULL, or where the part of the stack ends that its outermost
 * call of the library has, which goes on or was left by a jump that no call has seen yet. Around a
 * function of the user it is NULL (kl_user_begins), so what that calls is an outermost call too.
 *
 * Where `end` is not NULL, a function that begins is one of three. One that another function of the
 * library calls stands below it and returns to the library's own code. One that a handler of a
 * signal calls interrupts the outermost call, which stands on the way up the stack. Else that call
 * was left: of what it had begun nothing is ended, but signals.c is told, and cancellation is put
 * back. Where the way up breaks off, at a function without unwind tables, a call that would stand
 * above is taken to go on: it is seen to be left by a call from no deeper place. */
#include "posix.h"
#include "calls.h"
#include "holds.h"
#include "live.h"
#include "signals.h"
#include "thread.h"

#include <pthread.h>
#include <stddef.h>
#include <stdint.h>
#include <unwind.h>

_Thread_local kl_outside kl_calls;

void kl_change_enters(void) {
    if (kl_calls.changing++ == 0) kl_change_begins();
}

void kl_change_leaves(void) {
    if (--kl_calls.changing == 0) kl_change_ends();
}

/* The outermost call is over, in a program that runs under the tool. */
void kl_call_leaves(void) {
    const int may_start_or_stop = kl_calls.starts;
    kl_calls.starts = 0;
    kl_live_leaves(may_start_or_stop);
}

/* -- a call that was left by a jump -- */

/* Whether the place is one of the library's code: each is if that is not known. */
static int is_own(uintptr_t place) {
    return !kl_first_byte ||
           place - (uintptr_t)kl_first_byte < (size_t)(kl_end_byte - kl_first_byte);
}

typedef struct { uintptr_t begins, end, place; int is_past, is_found; } search;

/* A function of the library whose part of the stack ends there, above the one that begins. */
static _Unwind_Reason_Code look(struct _Unwind_Context *frame, void *data) {
    search *s = data;
    const uintptr_t end = _Unwind_GetCFA(frame);
    s->is_found = s->is_past && end == s->end && is_own(s->place);
    s->is_past |= end == s->begins;
    s->place = _Unwind_GetIP(frame);
    return s->is_found ? _URC_END_OF_STACK : _URC_NO_REASON;
}

/* The way up the stack ends at the place 0, or before at a function without unwind tables: a call
 * that may stand above that goes on. */
static int goes_on(const void *end, const void *begins) {
    search s = { (uintptr_t)begins, (uintptr_t)end, 0, 0, 0 };
    _Unwind_Backtrace(look, &s);
    return s.is_found || (s.place && ((uintptr_t)end > (uintptr_t)begins || kl_on_another_stack()));
}

/* A call that the program makes meanwhile is that of a signal's handler, or the one before was
 * left. */
static __attribute__((noinline)) int forget_if_left(const void *end) {
    if (goes_on(kl_calls.end, end)) return 0;
    const kl_outside left = kl_calls, none = { 0 };
    kl_calls = none;
    kl_signals_were_left(kl_peek_thread());
    if (left.uncancelled) pthread_setcancelstate(left.cancelled_before, NULL);
    return 1;
}

/* A function of the library that another one calls stands below it. */
int kl_is_left(const void *end, const void *returns_to) {
    return (uintptr_t)end < (uintptr_t)kl_calls.end && is_own((uintptr_t)returns_to)
               ? 0
               : forget_if_left(end);
}

/* -- a call that goes on after a function of the user -- */

kl_outside kl_user_begins(void) {
    if (kl_calls.changing) kl_change_ends();
    const kl_outside before = kl_calls, outermost = { .end = before.end };
    kl_calls = outermost;
    if (before.uncancelled) pthread_setcancelstate(before.cancelled_before, NULL);
    if (before.end && kl_is_live()) kl_live_leaves(before.starts);
    kl_calls.end = NULL;
    return before;
}

void kl_user_ends(kl_outside before) {
    kl_calls.end = before.end;
    if (before.end && kl_is_live()) kl_live_enters();
    kl_calls = before;
    if (before.uncancelled)
        pthread_setcancelstate(PTHREAD_CANCEL_DISABLE, &kl_calls.cancelled_before);
    if (before.changing) kl_change_begins();
}

/* The tool has stopped the thread, which may be in a handler of a signal that interrupted a
 * call. */
kl_outside kl_stopped_begins(const void *end) {
    const kl_outside before = kl_calls, stopped = { .end = end };
    kl_calls = stopped;
    return before;
}

void kl_stopped_ends(kl_outside before) { kl_calls = before; }
