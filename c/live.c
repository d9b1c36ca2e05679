/* What a program does while it runs, as the tool of Valgrind counts it (tools/valgrind). There is
 * no stream: at each call of a thread whatever it did since its last call happens in the core,
 * which decides what is counted.
 *
 * The order of a call. It enters (KL_ENTER): from here on the tool does not count what the thread
 * does. If a running set wants it, the tool's counts are taken, and what they grew by since the
 * last time is added to `left`, for the kinds that are wanted; kl_happen (live_counts.c) then hands
 * over what is left, and calls handlers as their thresholds are passed. The function does its work.
 * The call leaves: if it may have started or stopped a set, it is found out anew which kinds are
 * wanted (live_kinds.c), the tool counts or not, and the counts are taken once more, so that
 * nothing from before counts. The tool is told how many occurrences of each kind may pass until a
 * threshold could be passed, or after how many instructions a turn ends where a set is multiplexed.
 * At last what the thread does is the program's again (KL_LEAVE).
 *
 * The tool stops a thread where such a number is reached, between two instructions of the program
 * (live_stub.c). kl_live_stops does there what a call does, with the calls of the thread put aside,
 * for it may be in the handler of a signal that interrupted one.
 *
 * The invariant. Of each kind that is wanted, what has happened in the core and what is `left` are
 * together what the thread did up to `counts[seen]`, since its sets were started. The other one of
 * the two `counts` is room for the next ones: they are read there first, and `seen` changes when
 * they have been added. What happens is taken off `left` at once. Of a kind that is not wanted
 * nothing is left. While a handler of thresholds runs time stands: counts are taken, and not added.
 *
 * A handler of thresholds may jump out. It is called when the core has ended, so `left` has just
 * what did not happen yet, and that happens at the thread's next call. A handler of a signal that
 * jumps out of a call passes by KL_LEAVE, so nothing counts from there to the thread's next call,
 * as docs/C_PROGRAMS.md says: that call enters anew, and leaves.
 *
 * The tool may stop a thread inside of malloc, so what is done there takes no memory of the C
 * library: in such a program the proved library has a heap of its own (live_heap.c). */
#include "posix.h"
#include "../tools/valgrind/kinds.h"
#include "../tools/valgrind/protocol.h"
#include "calls.h"
#include "holds.h"
#include "limits.h"
#include "live.h"
#include "live_requests.h"
#include "live_thread.h"
#include "papi.h"
#include "sets.h"
#include "signals.h"
#include "thread.h"
#include "watches.h"

#include <stdint.h>
#include <stdlib.h>
#include <string.h>

/* Among so many instructions, and those of a block of code, the order of occurrences is evened out,
 * where a set is multiplexed. */
#define TURN_INSTRUCTIONS 65536
/* What the tool can't stop at is waited for by instructions, of which one makes at most so many
 * occurrences. */
#define MOST_AT_ONCE 512

int kl_runs_live;

__attribute__((constructor)) static void begin(void) {
    kl_runs_live = kl_ask(KL_HELLO, (uintptr_t)kl_first_byte, (uintptr_t)kl_end_byte,
                          (uintptr_t)kl_live_stub) == KL_VERSION;
    if (kl_runs_live) kl_keep_begins();
}

int kl_live_opens(thread_state *t) {
    if (!kl_runs_live) return PAPI_OK;
    t->live = calloc(1, sizeof *t->live);
    if (!t->live) return PAPI_ENOMEM;
    t->live->codes = kl_codes_of(&t->library);
    kl_keep_opens(t);
    return PAPI_OK;
}

void kl_live_closes(thread_state *t) {
    kl_keep_closes(t);
    free(t->live);
    t->live = NULL;
}

/* The tool tells no hits of the first level: loads that miss it are told. */
static void take_counts(kl_amounts *into) {
    kl_ask(KL_COUNTS, (uintptr_t)into->of, KL_KINDS, 0);
    into->of[LOAD_HITS] = into->of[KL_LOADS] - into->of[KL_L1D_LOAD_MISSES];
}

uint64_t kl_live_cycles(int of_all) {
    uint64_t cycles[2] = { 0, 0 };
    kl_ask(KL_TIME, (uintptr_t)cycles, 0, 0);
    return cycles[of_all ? 0 : 1];
}

static void add_new(live_thread *live, const kl_amounts *seen, const kl_amounts *now) {
    for (uint64_t kinds = live->wanted; kinds; kinds &= kinds - 1) {
        int kind = __builtin_ctzll(kinds);
        for (unsigned i = 0; i < live->codes[kind].count; i++)
            live->left[kind][i] += now->of[kind] - seen->of[kind];
    }
}

/* Takes what the thread did since its last call, and it happens. In a handler of thresholds time
 * stands. A handler of a signal, or the tool, may have interrupted this. The thread's state may be
 * gone then, if a handler ended the library. */
static void take_new(thread_state *t, uint64_t address) {
    live_thread *live = t->live;
    const int stands = kl_in_handler(t);
    if (!kl_core_begins(t)) return;
    const int next = !live->seen;
    take_counts(&live->counts[next]);
    if (!stands) add_new(live, &live->counts[live->seen], &live->counts[next]);
    live->seen = next;
    if (stands || !live->wanted || live->has_ended) kl_core_ends(t);
    else kl_happen(t, live->wanted, address);
}

/* Nothing happens to a thread that has ended. */
static void catch_up(uint64_t address) {
    thread_state *t = kl_peek_thread();
    if (!t || !t->live) return;
    kl_change_enters();
    take_new(t, address);
    kl_change_leaves();
}

static int runs(thread_state *t, uint32_t set, uint32_t *bits) {
    *bits = 0;
    return t->sets[set] && kistalub_state(&t->library, set, bits) == PAPI_OK &&
           *bits & PAPI_RUNNING;
}

static uint64_t kinds_of_set(thread_state *t, uint32_t set) {
    uint32_t codes[MOST_EVENTS];
    uint64_t count = 0, kinds = 0;
    if (kistalub_list_events(&t->library, set, codes, MOST_EVENTS, &count) != PAPI_OK)
        return KL_ALL_KINDS;
    for (uint64_t i = 0; i < count && i < MOST_EVENTS; i++) kinds |= kl_kinds_of(t, codes[i]);
    return kinds;
}

/* Finds out what the thread's running sets count, from now on. The tool is told whether any
 * does. */
static void note_sets(thread_state *t) {
    live_thread *live = t->live;
    uint32_t bits;
    live->wanted = 0;
    live->is_in_turns = 0;
    for (uint32_t set = 0; set < MOST_SETS; set++) {
        if (!runs(t, set, &bits)) continue;
        live->wanted |= kinds_of_set(t, set);
        if (bits & PAPI_MULTIPLEXING) live->is_in_turns = 1;
    }
    if (live->wanted && kl_keeps(t)) live->wanted = KL_ALL_KINDS;
    kl_ask(live->wanted ? KL_START : KL_STOP, 0, 0, 0);
    take_counts(&live->counts[live->seen]);
    for (int kind = 0; kind < LINE_KINDS; kind++)
        if (!(live->wanted & KL_BIT(kind))) memset(live->left[kind], 0, sizeof live->left[kind]);
}

static void shorten(uint64_t *period, uint64_t to) {
    if (!to) to = 1;
    if (!*period || to < *period) *period = to;
}

/* The tool stops the thread before the event can pass its threshold, if all that is left to it were
 * of one kind and as much of each. */
static void stop_before(thread_state *t, uint32_t code, const kl_watch *w, int64_t value,
                        kl_amounts *periods) {
    uint64_t kinds = kl_kinds_of(t, code), left = w->threshold - (uint64_t)value % w->threshold;
    unsigned count = (unsigned)__builtin_popcountll(kinds);
    for (int kind = 0; kind < LINE_KINDS; kind++)
        if (kinds & KL_BIT(kind))
            shorten(&periods->of[kind == LOAD_HITS ? KL_LOADS : kind], left / count);
}

static void stop_before_all(thread_state *t, uint32_t set, kl_amounts *periods) {
    uint32_t codes[MOST_EVENTS], given = 0;
    uint64_t count = 0;
    int64_t values[MOST_EVENTS];
    if (kistalub_list_events(&t->library, set, codes, MOST_EVENTS, &count) != PAPI_OK) return;
    if (kistalub_read(&t->library, set, values, MOST_EVENTS, &given) != PAPI_OK) return;
    for (uint64_t place = 0; place < count && place < given; place++) {
        const kl_watch *w = &t->sets[set]->watches[place];
        if (w->threshold && (w->handled || w->profiled))
            stop_before(t, codes[place], w, values[place], periods);
    }
}

/* Says at what the tool stops the thread next. Instructions come last: they stand in for a kind
 * that the tool can't stop at. */
static void arm(thread_state *t) {
    live_thread *live = t->live;
    kl_amounts periods = { { 0 } };
    uint32_t bits;
    for (uint32_t set = 0; t->is_watched && set < MOST_SETS; set++)
        if (runs(t, set, &bits)) stop_before_all(t, set, &periods);
    for (int kind = KL_KINDS - 1; kind >= 0; kind--) {
        uint64_t period = periods.of[kind];
        if (!period && !(live->armed & KL_BIT(kind))) continue;
        if (kl_ask(KL_ARM, (uintptr_t)kind, period, 0))
            live->armed = period ? live->armed | KL_BIT(kind) : live->armed & ~KL_BIT(kind);
        else if (kind != KL_INSTRUCTIONS)
            shorten(&periods.of[KL_INSTRUCTIONS], period / MOST_AT_ONCE);
    }
    if (live->is_in_turns || live->has_turn)
        kl_ask(KL_TURN, live->is_in_turns ? TURN_INSTRUCTIONS : 0, 0, 0);
    live->has_turn = live->is_in_turns;
}

static int stops_anywhere(const thread_state *t) {
    return t->live->armed || t->live->has_turn ||
           (t->live->wanted && (t->is_watched || t->live->is_in_turns));
}

/* The thread goes back to the program. */
static void look_after(thread_state *t, int may_start_or_stop) {
    if (!may_start_or_stop && !stops_anywhere(t)) return;
    kl_change_enters();
    if (kl_core_begins(t)) {
        if (may_start_or_stop) note_sets(t);
        if (stops_anywhere(t)) arm(t);
        kl_core_ends(t);
    }
    kl_change_leaves();
}

static void look_after_all(int may_start_or_stop) {
    thread_state *t = kl_peek_thread();
    if (t && t->live) look_after(t, may_start_or_stop);
}

void kl_live_stops(uint64_t address) {
    const kl_outside before = kl_stopped_begins(__builtin_dwarf_cfa());
    catch_up(address);
    look_after_all(0);
    kl_stopped_ends(before);
}

void kl_live_enters(void) {
    kl_ask(KL_ENTER, 0, 0, 0);
    const thread_state *t = kl_peek_thread();
    if (t && t->live && t->live->wanted) catch_up(0);
}

void kl_live_leaves(int may_start_or_stop) {
    look_after_all(may_start_or_stop);
    kl_ask(KL_LEAVE, 0, 0, 0);
}
