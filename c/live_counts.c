/* Occurrences of a program that runs, handed over to its thread's library as numbers
 * (docs/FORMATS.md, Occurrences as numbers). A handler of thresholds may jump out between two calls
 * of the core, so what has happened is taken off at once: what is left happens at the thread's next
 * call. */
#include "posix.h"
#include "../tools/valgrind/kinds.h"
#include "calls.h"
#include "holds.h"
#include "limits.h"
#include "live_thread.h"
#include "papi.h"
#include "sets.h"
#include "signals.h"
#include "thread.h"
#include "watches.h"

#include <stdint.h>
#include <stdio.h>

/* What the core takes at once, while the thread's signals wait. They are whole lines. */
#define MOST_AT_ONCE (LARGEST_AMOUNT << 14)
#define MOST_LISTED 64 /* in one call of the core: a thread may have a small stack */
#define MORE 1 /* is left, beside the codes of PAPI */

/* What a thread hands over in one call of the core: occurrences, how much of each is given, where
 * it stands how much is left, and the thresholds that were passed. */
typedef struct {
    uint64_t kinds, address, told, *left[MOST_LISTED];
    size_t count;
    uint32_t given[MOST_LISTED];
    kistalub_occurrences listed[MOST_LISTED];
    kistalub_passing passings[MOST_EVENTS];
} handing;

/* One native event: where it stands how much of it is left, what is not listed yet, in how many
 * portions, and its share of them. */
typedef struct { uint64_t *left, unlisted, portions, credit; event_code code; } turn;

/* As much of the list happens as does until thresholds are passed. MORE if others are to wait. */
static int hand_over(thread_state *t, handing *h) {
    int is_more = 0;
    int answer = kistalub_happen(&t->library, h->listed, h->count, h->passings, MOST_EVENTS,
                                 &h->told);
    for (size_t i = 0; i < h->count; i++) {
        const uint32_t went = h->given[i] - h->listed[i].amount;
        *h->left[i] -= went;
        is_more |= went == MOST_AT_ONCE;
        if (KL_RARELY(t->live->kept) && went) kl_keep_adds(t, &h->listed[i], went);
    }
    h->count = 0;
    return answer == PAPI_EBUF || (answer == PAPI_OK && (h->told || is_more)) ? MORE : answer;
}

static int list(thread_state *t, handing *h, uint64_t *left, uint32_t amount, event_code code) {
    int answer = h->count == MOST_LISTED ? hand_over(t, h) : PAPI_OK;
    if (answer != PAPI_OK) return answer;
    h->left[h->count] = left;
    h->given[h->count] = amount;
    h->listed[h->count++] = (kistalub_occurrences){ .address = h->address,
                                                    .amount = amount,
                                                    .select = code.select,
                                                    .umask = code.umask };
    return PAPI_OK;
}

static int happen_whole(thread_state *t, handing *h) {
    for (uint64_t kinds = h->kinds; kinds; kinds &= kinds - 1) {
        const int kind = __builtin_ctzll(kinds);
        const kind_codes *codes = &t->live->codes[kind];
        for (unsigned i = 0; i < codes->count; i++) {
            uint64_t *left = &t->live->left[kind][i];
            const uint32_t amount = *left < MOST_AT_ONCE ? (uint32_t)*left : MOST_AT_ONCE;
            int answer = amount ? list(t, h, left, amount, codes->of[i]) : PAPI_OK;
            if (answer != PAPI_OK) return answer;
        }
    }
    return hand_over(t, h);
}

static unsigned take_turns(live_thread *live, uint64_t kinds, turn *turns, uint64_t *most) {
    unsigned count = 0;
    for (; kinds; kinds &= kinds - 1) {
        const int kind = __builtin_ctzll(kinds);
        for (unsigned i = 0; i < live->codes[kind].count; i++) {
            uint64_t *left = &live->left[kind][i],
                     portions = (*left + LARGEST_AMOUNT - 1) / LARGEST_AMOUNT;
            if (!portions) continue;
            turns[count++] = (turn){ left, *left, portions, 0, live->codes[kind].of[i] };
            if (portions > *most) *most = portions;
        }
    }
    return count;
}

/* In each round an event has a line as often as its share of all says, so that all end together. */
static int happen_in_turns(thread_state *t, handing *h) {
    turn turns[LINE_KINDS * MOST_CODES];
    uint64_t most = 0;
    const unsigned count = take_turns(t->live, h->kinds, turns, &most);
    for (uint64_t round = 0; round < most; round++)
        for (turn *one = turns; one < turns + count; one++) {
            one->credit += one->portions;
            if (one->credit < most) continue;
            one->credit -= most;
            const uint32_t amount =
                one->unlisted < LARGEST_AMOUNT ? (uint32_t)one->unlisted : LARGEST_AMOUNT;
            one->unlisted -= amount;
            int answer = list(t, h, one->left, amount, one->code);
            if (answer != PAPI_OK) return answer;
        }
    return hand_over(t, h);
}

/* The core takes no more of the thread: it has had as many lines as there are stamps. */
static void end(thread_state *t) {
    t->live->has_ended = 1;
    fprintf(stderr,
            "papi: thread %u: nothing more is counted: %u lines of occurrences have happened\n",
            t->number, UINT32_MAX);
}

/* A handler may jump out. PAPI_ENOINIT if one ended the library: the thread's state may be gone
 * then. */
static __attribute__((noinline)) int tell(thread_state *t, const handing *h) {
    const kl_hold hold = KL_HOLD(0);
    const int place = kl_hold_on(t, &hold);
    kl_tell(t, h->passings, h->told);
    return kl_let_go(t, place);
}

/* The core has been begun, and ends before the handlers are called. */
static int happen_until_told(thread_state *t, handing *h) {
    h->told = h->count = 0;
    kl_core_changes(t);
    int answer = t->live->is_in_turns ? happen_in_turns(t, h) : happen_whole(t, h);
    kl_core_rests(t);
    if (KL_RARELY(t->live->kept)) kl_keep_writes(t);
    if (answer == PAPI_EINVAL) end(t);
    kl_core_ends(t);
    return h->told && tell(t, h) != PAPI_OK ? PAPI_ENOINIT : answer;
}

void kl_happen(thread_state *t, uint64_t kinds, uint64_t address) {
    handing h;
    h.kinds = kinds;
    h.address = address;
    while (happen_until_told(t, &h) == MORE && kl_core_begins(t)) continue;
}
