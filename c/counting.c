/* Counting: start, stop, read, accum, reset, and how time goes on. */
#include "posix.h"
#include "calls.h"
#include "counting.h"
#include "holds.h"
#include "limits.h"
#include "live.h"
#include "papi.h"
#include "sets.h"
#include "signals.h"
#include "silent.h"
#include "streams.h"
#include "thread.h"
#include "watches.h"

#include <stdint.h>
#include <string.h>

/* Up to n occurrences happen. If an event has a watch it is one, since what watches it comes before
 * the next; in a program that runs under the tool what comes next was done before the thread was
 * stopped. None does in a call that a signal interrupted. */
static int run(thread_state *t, uint32_t n, uint32_t *consumed) {
    kistalub_passing passings[MOST_EVENTS];
    kistalub_fault fault = { 0, 0 };
    uint64_t told = 0;
    if (!kl_core_begins(t)) return PAPI_OK;
    kl_core_changes(t);
    int code = kistalub_run(&t->library, t->is_watched && !kl_is_live() ? 1 : n, consumed, passings,
                            MOST_EVENTS, &told, &fault);
    kl_core_rests(t);
    t->happened += *consumed;
    kl_core_ends(t);
    if (code == PAPI_ESYS) kl_say_fault(t->number, &fault);
    if (told) kl_tell(t, passings, told);
    return code;
}

/* PAPI_EISRUN in a handler, in which time stands. */
int kl_go(thread_state *t, uint32_t n, uint32_t *went) {
    const kl_hold hold = KL_HOLD(0);
    int code = kl_in_handler(t) ? PAPI_EISRUN : PAPI_OK;
    const int place = kl_hold_on(t, &hold);
    while (code == PAPI_OK && *went < n) {
        uint32_t consumed = 0;
        code = run(t, n - *went, &consumed);
        *went += consumed;
        if (consumed == 0) break;
        if (t->has_left) code = PAPI_ENOINIT;
    }
    int ended = kl_let_go(t, place);
    return ended == PAPI_OK ? code : ended;
}

/* Nothing happens to a thread that has ended, nor in a handler of a signal that interrupted a
 * function that changes something. */
int kistalub_go(uint32_t n, uint32_t *went) {
    CALL(kistalub_go);
    uint32_t here_went = 0;
    int code;
    if (!went) went = &here_went;
    *went = 0;
    if (kl_interrupts()) return PAPI_OK;
    thread_state *t = kl_current_thread(&code);
    if (!t) return kl_is_past() ? PAPI_OK : code;
    return kl_go(t, n, went);
}

int kl_goes_on(thread_state *t) {
    uint32_t went = 0;
    return t->step == 0 || kl_in_handler(t) ? PAPI_OK : kl_go(t, t->step, &went);
}

/* What is asked of a set that counts. */
typedef enum { TO_READ, TO_STOP, TO_ACCUM, TO_RESET, TO_START } set_operation;

static int call_core(kistalub *library, uint32_t set, set_operation what, int64_t *values,
                     uint32_t *count) {
    int code = PAPI_OK;
    switch (what) {
    case TO_START: return kistalub_start(library, set);
    case TO_RESET: return kistalub_reset(library, set);
    case TO_STOP: return kistalub_stop(library, set, values, MOST_EVENTS, count);
    default: code = kistalub_read(library, set, values, MOST_EVENTS, count);
    }
    return code == PAPI_OK && what == TO_ACCUM ? kistalub_reset(library, set) : code;
}

/* The answer to a handler of a signal that interrupted a call of the proved library: what was told
 * last, as if the call was made before the other one. */
static __attribute__((noinline)) int call_later(thread_state *t, kl_set *s, uint32_t set,
                                                set_operation what, int64_t *values,
                                                uint32_t *count) {
    if (what == TO_START) return PAPI_EISRUN;
    if (what == TO_STOP && !s->runs) return PAPI_ENOTRUN;
    *count = what == TO_RESET ? 0 : s->event_count;
    memcpy(values, s->last, *count * sizeof *values);
    if (what == TO_STOP) {
        s->runs = 0;
        t->signals.to_stop |= UINT64_C(1) << set;
    } else if (what != TO_READ) {
        memset(s->last, 0, sizeof s->last);
        t->signals.to_reset |= UINT64_C(1) << set;
    }
    return PAPI_OK;
}

/* Keeps what was told last. What a handler asked for that interrupted the call came after it. */
static void note(const thread_state *t, kl_set *s, uint32_t set, set_operation what,
                 const int64_t *values, uint32_t count) {
    if (what == TO_START || what == TO_STOP) s->runs = what == TO_START;
    if ((t->signals.to_stop | t->signals.to_reset) >> set & 1) return;
    if (what == TO_READ || what == TO_STOP) memcpy(s->last, values, count * sizeof *values);
    else memset(s->last, 0, sizeof s->last);
}

/* Asks something of a set, which gives values or none. Inlined, what is asked is known where it is
 * compiled. */
static inline __attribute__((always_inline)) int
ask(thread_state *owner, uint32_t set, set_operation what, int64_t *values, uint32_t *count) {
    if (set >= MOST_SETS) return PAPI_ENOEVST;
    kl_set *s = owner->sets[set];
    if (!kl_core_begins(owner)) return call_later(owner, s, set, what, values, count);
    if (what != TO_READ) kl_core_changes(owner);
    int code = call_core(&owner->library, set, what, values, count);
    if (what != TO_READ) kl_core_rests(owner);
    if (code == PAPI_OK) note(owner, s, set, what, values, *count);
    kl_core_ends(owner);
    return code;
}

static int is_after_step(set_operation what) { return what != TO_START && what != TO_RESET; }

/* Asks it of a set that is not the thread's own: of one of a thread that has ended, to which
 * nothing happens any more, or of none. */
static __attribute__((noinline)) int ask_elsewhere(thread_state *t, int set, set_operation what,
                                                   int64_t *values, uint32_t *count) {
    thread_state *owner = kl_owner_of(t, set);
    int code = owner == t && is_after_step(what) ? kl_goes_on(t) : PAPI_OK;
    if (owner != t && what == TO_START && !kl_was_own(owner)) code = PAPI_ENOEVST;
    if (code == PAPI_OK) code = ask(owner, kl_set_number(owner, set), what, values, count);
    kl_let_owner_go(owner);
    return code;
}

/* Asks it after the step. The call is not made if the step met a fault. */
static inline __attribute__((always_inline)) int ask_here(int set, set_operation what,
                                                          int64_t *values, uint32_t *count) {
    int code;
    thread_state *t = kl_current_thread(&code);
    *count = 0;
    if (KL_RARELY(!t) && !kl_is_past()) return code;
    if (!t || kl_set_number(t, set) == UINT32_MAX)
        return ask_elsewhere(t, set, what, values, count);
    if (is_after_step(what) && t->step) code = kl_goes_on(t);
    return code == PAPI_OK ? ask(t, kl_set_number(t, set), what, values, count) : code;
}

/* The first start of a set with its events looks at them. It is not made if memory is refused. */
static int judge(int set) {
    thread_state *t = kl_peek_thread();
    kl_set *s = t ? kl_set_of(t, set) : NULL;
    if (!s || s->is_judged || kl_interrupts()) return PAPI_OK;
    int code = kl_judge_events(t, kl_set_number(t, set));
    s->is_judged = code == PAPI_OK;
    return code;
}

int PAPI_start(int set) {
    CALL(PAPI_start);
    int64_t none[MOST_EVENTS];
    uint32_t count;
    int code = judge(set);
    RETURN(code == PAPI_OK ? ask_here(set, TO_START, none, &count) : code);
}

int PAPI_reset(int set) {
    CALL(PAPI_reset);
    int64_t none[MOST_EVENTS];
    uint32_t count;
    RETURN(ask_here(set, TO_RESET, none, &count));
}

_Static_assert(sizeof(long long) == sizeof(int64_t),
               "the library writes a program's values where they belong");

int kl_read(int set, long long *values) {
    uint32_t count;
    return ask_here(set, TO_READ, (int64_t *)values, &count);
}

int PAPI_read(int set, long long *values) {
    CALL(PAPI_read);
    uint32_t count;
    RETURN(values ? ask_here(set, TO_READ, (int64_t *)values, &count) : PAPI_EINVAL);
}

int PAPI_stop(int set, long long *values) {
    CALL(PAPI_stop);
    int64_t unasked[MOST_EVENTS];
    uint32_t count;
    RETURN(ask_here(set, TO_STOP, values ? (int64_t *)values : unasked, &count));
}

int PAPI_accum(int set, long long *values) {
    CALL(PAPI_accum);
    int64_t more[MOST_EVENTS];
    uint32_t count = 0;
    if (!values) RETURN(PAPI_EINVAL);
    int code = ask_here(set, TO_ACCUM, more, &count);
    for (uint32_t i = 0; code == PAPI_OK && i < count; i++)
        values[i] = (long long)((unsigned long long)values[i] + (unsigned long long)more[i]);
    RETURN(code);
}

int PAPI_write(int set, long long *values) {
    CALL(PAPI_write);
    (void)set;
    (void)values;
    RETURN(PAPI_ENOSUPP);
}
