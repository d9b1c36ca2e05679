/* Thresholds that are passed: handlers, and which events have one.
 *
 * The invariant. Each event of a set has a watch, in the event's place. One that has a threshold is
 * `handled`, `profiled` or both. `is_watched` of a set and of a thread say whether there is such a
 * one, and kl_note_watches sets both after each change. While a thread is watched, kl_go lets its
 * stream happen by one occurrence at a time, so that what one passes is told before the next one
 * happens. Under tools/count the tool stops the thread in time in place of that (live.c).
 *
 * The order. The core makes an occurrence happen and gives the thresholds that it passed, set after
 * set. What happened is noted (`happened` of the thread, `left` under the tool), and the core ends:
 * it does not work while the user's functions run. Then kl_tell goes through the sets. Of each it
 * counts the hits of the profiles first, and then calls the set's handler once, with a bit for each
 * event that passed its threshold. Each set is looked up anew, since the handler before may have
 * taken it away; after one that ended the library nothing more is told.
 *
 * Around a handler kl_user_begins takes the thread out of its call: signals, cancellation and what
 * the tool counts are as the program has them, and a call that the handler makes is an outermost
 * one. Its hold (holds.c) says that a handler runs, and so time stands: a call that reads does so
 * without a step, and kistalub_go answers PAPI_EISRUN. Under the tool what the handler did is not
 * counted, so kl_user_ends comes before its hold is let go.
 *
 * A handler may jump out (longjmp, an exception): it passes by kl_user_ends, by the end of the hold
 * and by what was to be told of the same occurrence, which is not told any more. Nothing else is
 * lost: the core has ended, the occurrence was counted and noted, and the thread is in no call. The
 * next call finds that the hold was left, and time goes on. So docs/C_PROGRAMS.md promises that the
 * call is left as it is. */
#include "posix.h"
#include "calls.h"
#include "events.h"
#include "holds.h"
#include "limits.h"
#include "papi.h"
#include "sets.h"
#include "thread.h"
#include "watches.h"

#include <stdint.h>
#include <string.h>

int kl_has_handler(const kl_set *s) {
    for (int i = 0; i < MOST_EVENTS; i++)
        if (s->watches[i].handled) return 1;
    return 0;
}

int kl_has_profile(const kl_set *s) {
    for (int i = 0; i < MOST_EVENTS; i++)
        if (s->watches[i].profiled) return 1;
    return 0;
}

/* Finds out whether some event of the set, and some event at all, has a watch. */
void kl_note_watches(thread_state *t, kl_set *s) {
    s->is_watched = kl_has_handler(s) || kl_has_profile(s);
    t->is_watched = 0;
    for (int i = 0; i < MOST_SETS; i++) t->is_watched |= t->sets[i] && t->sets[i]->is_watched;
}

/* The set is as when it was made, but for its number and its domain. */
void kl_forget_set(thread_state *t, kl_set *s) {
    const kl_set made = { .number = s->number, .domain = s->domain };
    *s = made;
    kl_note_watches(t, s);
}

/* Calls the handler of a set. It may jump out. */
static void call_handler(thread_state *t, const kl_set *s, unsigned long long address,
                         long long vector) {
    const kl_hold hold = KL_HOLD(1);
    PAPI_overflow_handler_t handler = s->handler;
    if (!handler) return;
    kl_outside before = kl_user_begins();
    const int place = kl_hold_on(t, &hold);
    handler(s->number, (void *)(uintptr_t)address, vector, NULL);
    kl_user_ends(before); /* still in the handler: what it did is not counted */
    kl_let_go(t, place);
}

/* Tells of the thresholds that were passed at one occurrence: set after set, its profiles first. A
 * handler may end the library. */
void kl_tell(thread_state *t, const kistalub_passing *passings, uint64_t told) {
    for (uint64_t i = 0; i < told && !t->has_left;) {
        uint32_t set = passings[i].set;
        unsigned long long address = passings[i].address;
        long long vector = 0;
        for (; i < told && passings[i].set == set; i++) {
            uint32_t place = passings[i].index;
            if (set >= MOST_SETS || place >= MOST_EVENTS || !t->sets[set]) continue;
            kl_watch *w = &t->sets[set]->watches[place];
            if (w->handled) vector |= 1LL << place;
            if (w->profiled) kl_hit(t, w, address);
        }
        if (vector) call_handler(t, t->sets[set], address, vector);
    }
}

/* The watch of an event of a set that is stopped. PAPI_ENOEVST, PAPI_EISRUN, PAPI_ENOEVNT. */
int kl_find_watch(thread_state *t, int set, int event, uint32_t *own, kl_watch **found) {
    kl_events events;
    int code = kl_is_stopped(t, set);
    if (code == PAPI_OK) code = kl_code_in_library(t, event, own);
    if (code == PAPI_OK) code = kl_events_in(t, set, &events);
    if (code != PAPI_OK) return code;
    int place = kl_index_in(&events, *own);
    if (place < 0 || place >= MOST_EVENTS) return PAPI_ENOEVNT;
    *found = &kl_set_of(t, set)->watches[place];
    return PAPI_OK;
}

/* Sets the threshold of an event, or clears it with what watches it. */
int kl_set_threshold(thread_state *t, int set, uint32_t event, int threshold, kl_watch *w) {
    int code = kistalub_overflow(&t->library, kl_set_number(t, set), event, (uint64_t)threshold);
    if (code == PAPI_OK) w->threshold = (uint32_t)threshold;
    if (code == PAPI_OK && threshold == 0) {
        kl_set *s = kl_set_of(t, set);
        memset(w, 0, sizeof *w);
        if (!kl_has_handler(s)) s->handler = NULL;
        kl_note_watches(t, s);
    }
    return code;
}

static int set_handler(thread_state *t, int set, int event, int threshold,
                       PAPI_overflow_handler_t handler) {
    uint32_t own = 0;
    kl_watch *w = NULL;
    int code = kl_find_watch(t, set, event, &own, &w);
    if (code != PAPI_OK) return code;
    if (threshold < 0 || (threshold > 0 && !handler) || (threshold == 0 && !w->handled))
        return PAPI_EINVAL;
    code = kl_set_threshold(t, set, own, threshold, w);
    if (code != PAPI_OK || threshold == 0) return code;
    w->handled = 1;
    kl_set_of(t, set)->handler = handler;
    kl_note_watches(t, kl_set_of(t, set));
    return PAPI_OK;
}

/* A set has one handler, which is called for each of its events that has a threshold. The flags say
 * nothing here. */
int PAPI_overflow(int set, int event, int threshold, int flags, PAPI_overflow_handler_t handler) {
    CALL(PAPI_overflow);
    (void)flags;
    HERE(t);
    RETURN(set_handler(t, set, event, threshold, handler));
}

/* A bit of the vector is the place of an event in its set. */
int PAPI_get_overflow_event_index(int set, long long overflow_vector, int *array, int *number) {
    CALL(PAPI_get_overflow_event_index);
    HERE(t);
    kl_events events;
    if (overflow_vector == 0 || !array || !number || *number < 1) RETURN(PAPI_EINVAL);
    int code = kl_events_in(t, set, &events);
    if (code == PAPI_OK && events.count == 0) code = PAPI_EINVAL;
    if (code != PAPI_OK) RETURN(code);
    int count = 0;
    for (int place = 0; place < (int)events.count && count < *number; place++)
        if ((unsigned long long)overflow_vector >> place & 1) array[count++] = place;
    *number = count;
    return PAPI_OK;
}
