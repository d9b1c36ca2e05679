#include "requests.h"

#include "pub_tool_tooliface.h"
#include "pub_tool_transtab.h"
#include "valgrind.h"

#include "clocks.h"
#include "code.h"
#include "core.h"
#include "tape.h"
#include "thresholds.h"
#include "totals.h"
#include "words.h"

static ULong calls;

ULong calls_made(void) { return calls; }

static UWord greet(Addr first, Addr end, Addr to_stub) {
    stub = to_stub;
    if (words.is_partial || words.has_profile) totals_refuse();
    if (!has_library) VG_(discard_translations_safely)(0, ~(SizeT)0, "outcomes");
    has_library = True;
    if (words.counts_library) return KL_VERSION;
    library_first = first;
    library_end = end;
    VG_(discard_translations_safely)(first, end - first, "library");
    return KL_VERSION;
}

static UWord give_counts(const core *c, ULong *to, UWord count) {
    ULong counts[ALL_KINDS];
    core_counts(c, counts);
    for (UWord i = 0; i < count && i < KL_KINDS; i++) to[i] = counts[i];
    return 1;
}

static UWord enter(core *c) {
    c->is_in_library = !words.counts_library;
    calls++;
    if (c->tape) tape_ends_window(c);
    return 1;
}

static UWord leave(core *c) {
    c->is_in_library = False;
    return 1;
}

static UWord start(core *c) {
    core_starts(c);
    return 1;
}

static UWord stop(core *c) {
    core_stops(c);
    return 1;
}

static UWord turn(core *c, UWord instructions) {
    turn_begins(c, instructions);
    return 1;
}

static UWord give_passed(const core *c, kl_passed *to) {
    *to = c->passed;
    return 1;
}

static UWord give_time(ThreadId tid, const core *c, ULong *to) {
    to[0] = clock_of(tid);
    to[1] = cycles_of(c);
    return 1;
}

Bool answer_request(ThreadId tid, UWord *asked, UWord *answer) {
    core *c = core_of(tid);
    *answer = 0;
    if (!VG_IS_TOOL_USERREQ('K', 'L', asked[0]) || !c) return False;
    switch (asked[0] - KL_REQUEST) {
    case KL_HELLO: *answer = greet(asked[1], asked[2], asked[3]); break;
    case KL_ENTER: *answer = enter(c); break;
    case KL_LEAVE: *answer = leave(c); break;
    case KL_START: *answer = start(c); break;
    case KL_STOP: *answer = stop(c); break;
    case KL_COUNTS: *answer = give_counts(c, (ULong *)asked[1], asked[2]); break;
    case KL_ARM: *answer = threshold_arms(c, asked[1], asked[2]); break;
    case KL_PASSED: *answer = give_passed(c, (kl_passed *)asked[1]); break;
    case KL_SEE: *answer = (UWord)c->counts; break;
    case KL_TIME: *answer = give_time(tid, c, (ULong *)asked[1]); break;
    case KL_TURN: *answer = turn(c, asked[1]); break;
    default: return False;
    }
    set_current(tid);
    return True;
}
