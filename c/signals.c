/* Signals: how the calls of a thread meet the handlers that interrupt them.
 *
 * A handler of the program may count in the midst of another call of the same thread. The proved
 * library makes one call at a time over a handle, so there are two stretches in which no handler
 * may enter it: a call of the proved library that counts, from kl_core_begins to kl_core_ends (the
 * core), and a function that changes something (functions.h), from kl_change_begins to
 * kl_change_ends.
 *
 * The invariant. `depth` of a thread is not 0 just while its core works, and says whether that only
 * reads the counters or changes them. While it is not 0, and in a call that a handler makes in the
 * midst of a change (kl_interrupts), kl_core_begins answers 0. Who gets 0 touches nothing of the
 * library.
 *
 * The order. kl_core_begins looks for handlers if it is time to, blocks signals if a handler is
 * known, and only then sets `depth`: a handler that comes before that makes whole calls. Then it
 * does what handlers asked for. kl_core_ends clears `depth`, restores the mask, and does what was
 * asked for since. Blocked are all signals but those that an instruction of the thread itself
 * raises, which the system would not let wait. Where no handler is known nothing is blocked: that
 * saves two calls of the system. To look for handlers takes one for each signal, so it is done at a
 * thread's first call, at its first counting calls, and then now and then.
 *
 * A handler that was set since the last look can interrupt a stretch. counting.c answers its calls
 * as if they were made before the interrupted one: a reading gives the values that were told last,
 * a start is refused, and a stop or a reset is noted as a bit of `to_stop` or `to_reset`, which the
 * first call does that may. From then on (`is_met`) signals are blocked in each stretch.
 *
 * A jump (siglongjmp) out of a handler leaves the interrupted call without its end. Where signals
 * were blocked no handler ran inside of a stretch, so that call has ended or has not begun. That is
 * why docs/C_PROGRAMS.md promises it of all calls but those that it lists. The thread's next call
 * finds that it was left (calls.c), and calls kl_signals_were_left. A core that read is put back as
 * it was opened: a reading changes nothing behind the handle. One that was changing something may
 * be half done, so it is given up: the thread's calls answer PAPI_ECLOST until a library is begun
 * anew, and none gives a wrong count. The mask is left as the program's jump leaves it, and from
 * then on signals are blocked in each stretch. */
#define _GNU_SOURCE
#include "calls.h"
#include "limits.h"
#include "locks.h"
#include "papi.h"
#include "sets.h"
#include "signals.h"
#include "thread.h"

#include <pthread.h>
#include <signal.h>
#include <stdatomic.h>
#include <stdint.h>
#include <string.h>

#define FIRST_LOOKS 2
#define CALLS_BETWEEN_FIRST 32
#define CALLS_BETWEEN 1024

/* Some handler was seen, or a call that interrupted another one. */
static atomic_int is_met, has_handlers;
static _Thread_local struct { int are_waiting; sigset_t before; } change;

static int are_met(void) {
    return atomic_load_explicit(&has_handlers, memory_order_relaxed) |
           atomic_load_explicit(&is_met, memory_order_relaxed);
}

/* Signals that an instruction of the thread itself raises do not wait. */
static int is_own(int number) {
    return number == SIGSEGV || number == SIGBUS || number == SIGFPE || number == SIGILL ||
           number == SIGTRAP;
}

static int is_handled(int number) {
    struct sigaction action;
    if (is_own(number) || sigaction(number, NULL, &action)) return 0;
    return action.sa_flags & SA_SIGINFO ||
           (action.sa_handler != SIG_DFL && action.sa_handler != SIG_IGN);
}

/* All that may wait. */
static void note_others(sigset_t *others) {
    sigfillset(others);
    for (int number = 1; number < SIGRTMIN; number++)
        if (is_own(number)) sigdelset(others, number);
}

/* The last signal is not looked at: in a program that runs under valgrind it has a handler of
 * valgrind's. */
void kl_look_for_handlers(void) {
    int found = 0;
    for (int number = 1; number < SIGRTMAX && !found; number++) found = is_handled(number);
    if (atomic_load_explicit(&has_handlers, memory_order_relaxed) != found)
        atomic_store_explicit(&has_handlers, found, memory_order_relaxed); /* others look at it */
}

static __attribute__((noinline)) void look(kl_signals *s) {
    if (!s->looks) note_others(&s->others);
    kl_look_for_handlers();
    s->until_look = s->looks < FIRST_LOOKS ? CALLS_BETWEEN_FIRST : CALLS_BETWEEN;
    s->looks++;
}

/* A tool that puts signals off, such as ThreadSanitizer, may call a handler when they are blocked
 * already: what was blocked before is kept after that. */
static __attribute__((noinline)) void block_signals(kl_signals *s) {
    sigset_t before;
    pthread_sigmask(SIG_SETMASK, &s->others, &before);
    s->before = before;
    s->are_waiting = 1;
}

static __attribute__((noinline)) void restore_mask(kl_signals *s) {
    const sigset_t before = s->before;
    s->are_waiting = 0;
    pthread_sigmask(SIG_SETMASK, &before, NULL);
}

/* What handlers asked for meanwhile. The call that does it is at work itself. */
static __attribute__((noinline)) void do_asked(thread_state *t) {
    int64_t values[MOST_EVENTS];
    uint32_t count;
    const uint64_t to_stop = t->signals.to_stop, to_reset = t->signals.to_reset;
    t->signals.to_stop = t->signals.to_reset = 0;
    kl_core_changes(t);
    for (uint32_t set = 0; set < MOST_SETS; set++) {
        if (to_stop >> set & 1) kistalub_stop(&t->library, set, values, MOST_EVENTS, &count);
        if (to_reset >> set & 1 && kistalub_reset(&t->library, set) == PAPI_OK)
            memset(t->sets[set]->last, 0, sizeof t->sets[set]->last);
    }
    kl_core_rests(t);
}

int kl_core_begins(thread_state *t) {
    kl_signals *s = &t->signals;
    if (s->depth || kl_interrupts()) {
        atomic_store_explicit(&is_met, 1, memory_order_relaxed);
        return 0;
    }
    if (s->until_look-- == 0) look(s);
    if (are_met()) block_signals(s);
    s->depth = KL_CORE_READS;
    atomic_signal_fence(memory_order_seq_cst);
    if (s->to_stop | s->to_reset) do_asked(t);
    return 1;
}

/* The call that comes first does it: this one, or one of a handler. */
static __attribute__((noinline)) void do_now(thread_state *t) {
    if (kl_core_begins(t)) kl_core_ends(t);
}

void kl_core_ends(thread_state *t) {
    kl_signals *s = &t->signals;
    atomic_signal_fence(memory_order_seq_cst);
    s->depth = 0;
    if (s->are_waiting) restore_mask(s);
    if (s->to_stop | s->to_reset) do_now(t);
}

/* What a thread that is cancelled left undone would look like an interrupted function in its
 * destructors, so it is not. */
void kl_change_begins(void) {
    sigset_t others, before;
    kl_no_cancellation();
    if (!are_met()) return;
    note_others(&others);
    pthread_sigmask(SIG_SETMASK, &others, &before);
    change.before = before;
    change.are_waiting = 1;
}

/* What was asked for by handlers that interrupted the function all the same is done. */
void kl_change_ends(void) {
    thread_state *t = atomic_load_explicit(&is_met, memory_order_relaxed) ? kl_peek_thread() : NULL;
    if (t && (t->signals.to_stop | t->signals.to_reset)) do_now(t);
    kl_cancel_again(NULL);
    if (!change.are_waiting) return;
    change.are_waiting = 0;
    const sigset_t before = change.before;
    pthread_sigmask(SIG_SETMASK, &before, NULL);
}

/* A library that was being read is as it was. Of one that was being changed nothing is known: it is
 * closed by nobody. From now on all signals wait. */
void kl_signals_were_left(thread_state *t) {
    atomic_store_explicit(&is_met, 1, memory_order_relaxed);
    change.are_waiting = 0;
    if (!t || !t->signals.depth) return;
    const kistalub shut = KISTALUB_SHUT;
    t->is_lost = t->signals.depth == KL_CORE_CHANGES;
    t->library = t->is_lost ? shut : t->opened;
    if (t->is_lost) t->is_opened = 0;
    t->signals.depth = t->signals.are_waiting = 0;
}
