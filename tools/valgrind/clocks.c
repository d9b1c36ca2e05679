#include "clocks.h"

#include "pub_tool_aspacemgr.h"
#include "pub_tool_libcproc.h"
#include "pub_tool_mallocfree.h"
#include "pub_tool_vki.h"
#include "pub_tool_vkiscnums.h"

#include "core.h"
#include "turns.h"
#include "words.h"

#define SECOND 1000000000ULL
#define MILLISECOND 1000000ULL
#define MOST_SECONDS 1000000000L
#define ABSOLUTE 1    /* TIMER_ABSTIME */
#define CLOCKS_READ 2 /* the real one and the monotonic one */

typedef struct {
    ULong ahead; /* cycles that are not its own */
    Bool waits, is_absolute;
    ULong asked, start; /* nanoseconds, from a moment on in cycles */
    UInt started_at;
    ULong read[CLOCKS_READ], read_at[CLOCKS_READ]; /* what it was told of these clocks, and when, by
                                                      the clock of turns */
} clock;

static clock *clocks; /* by thread */

static clock *of(ThreadId tid) {
    if (!clocks) clocks = VG_(calloc)("clocks", VG_N_THREADS, sizeof *clocks);
    return &clocks[tid];
}

ULong clock_of(ThreadId tid) {
    const core *c = core_of(tid);
    return of(tid)->ahead + (c ? cycles_of(c) : 0);
}

static void moves_to(ThreadId tid, ULong moment) {
    ULong now = clock_of(tid);
    if (now < moment) of(tid)->ahead += moment - now;
}

void clocks_thread_begins(ThreadId parent, ThreadId tid) {
    *of(tid) = (clock){0};
    if (core_of(parent)) moves_to(tid, clock_of(parent));
}

void clocks_join(ThreadId tid, ThreadId other) { moves_to(tid, clock_of(other)); }

/* -- waits for a time -- */

/* Reads seconds and a part of one, of which `parts` make a second. */
static Bool read_time(UWord address, ULong parts, ULong *nanoseconds) {
    const Long *time = (const Long *)address;
    if (!address || !VG_(am_is_valid_for_client)(address, 2 * sizeof *time, VKI_PROT_READ))
        return False;
    if (time[0] < 0 || time[0] > MOST_SECONDS * 10 || time[1] < 0 || (ULong)time[1] >= parts)
        return False;
    *nanoseconds = (ULong)time[0] * SECOND + (ULong)time[1] * (SECOND / parts);
    return True;
}

static Bool read_milliseconds(UWord argument, ULong *nanoseconds) {
    Int milliseconds = (Int)argument;
    *nanoseconds = (ULong)milliseconds * MILLISECOND;
    return milliseconds >= 0;
}

/* Whether a call waits for a time at most, and how long. */
static Bool asks_for(UInt number, const UWord *arguments, ULong *nanoseconds) {
    switch (number) {
    case __NR_nanosleep: return read_time(arguments[0], SECOND, nanoseconds);
    case __NR_clock_nanosleep: return read_time(arguments[2], SECOND, nanoseconds);
    case __NR_select: return read_time(arguments[4], SECOND / 1000, nanoseconds);
    case __NR_pselect6: return read_time(arguments[4], SECOND, nanoseconds);
    case __NR_poll: return read_milliseconds(arguments[2], nanoseconds);
    case __NR_ppoll: return read_time(arguments[2], SECOND, nanoseconds);
    case __NR_epoll_wait:
    case __NR_epoll_pwait: return read_milliseconds(arguments[3], nanoseconds);
    default: return False;
    }
}

static Bool is_absolute(UInt number, const UWord *arguments) {
    return number == __NR_clock_nanosleep && arguments[1] & ABSOLUTE;
}

/* From a moment of a clock that the program reads, and of the clock of turns then: the time that is
 * left until another moment of it. */
static ULong left_until(ThreadId tid, UInt which, ULong moment) {
    const clock *c = of(tid);
    ULong now = turns_clock(tid), passed = 0, from = which < CLOCKS_READ ? c->read[which] : 0;
    if (from) passed = (now - c->read_at[which]) * BLOCK_NANOSECONDS;
    else from = machine_nanoseconds(which);
    return moment > from + passed ? moment - from - passed : 0;
}

Bool clocks_only_waits(ThreadId tid, UInt number, const UWord *arguments, ULong *nanoseconds) {
    Bool is_sleep = number == __NR_nanosleep || number == __NR_clock_nanosleep;
    Bool has_none = (number == __NR_select || number == __NR_pselect6)
                        ? !arguments[0]
                        : (number == __NR_poll || number == __NR_ppoll) && !arguments[1];
    if ((!is_sleep && !has_none) || !asks_for(number, arguments, nanoseconds)) return False;
    if (is_absolute(number, arguments))
        *nanoseconds = left_until(tid, (UInt)arguments[0], *nanoseconds);
    return True;
}

void clocks_end_of_wait(ThreadId tid, Bool absolute, UInt which, Addr time, ULong *until,
                        ULong *machine_until) {
    ULong asked, now = machine_nanoseconds(MACHINE_MONOTONIC);
    if (!read_time(time, SECOND, &asked)) return;
    ULong counted = absolute ? left_until(tid, which, asked) : asked;
    if (absolute) {
        ULong moment = machine_nanoseconds(which);
        asked = asked > moment ? asked - moment : 0;
    }
    *until = turns_clock(tid) + counted / BLOCK_NANOSECONDS;
    *machine_until = now + asked;
}

static ULong in_cycles(ULong nanoseconds) {
    ULong rate = (ULong)words.mhz;
    return nanoseconds / 1000 * rate + nanoseconds % 1000 * rate / 1000;
}

void clocks_waited(ThreadId tid, ULong nanoseconds) { of(tid)->ahead += in_cycles(nanoseconds); }

void clocks_call_begins(ThreadId tid, UInt number, const UWord *arguments) {
    ULong asked = 0;
    clock *c = of(tid);
    c->waits = asks_for(number, arguments, &asked);
    if (!c->waits) return;
    c->is_absolute = is_absolute(number, arguments);
    c->asked = asked;
    c->start = clock_of(tid);
    c->started_at = VG_(read_millisecond_timer)();
}

/* How long a thread has waited. What was interrupted has a rest, and what was waited for up to a
 * moment took as long as on the machine. */
static ULong waited(const clock *c, UInt number, const UWord *arguments, SysRes result) {
    Bool is_sleep = number == __NR_nanosleep || number == __NR_clock_nanosleep;
    ULong rest;
    if (c->is_absolute) return (VG_(read_millisecond_timer)() - c->started_at) * MILLISECOND;
    if (!sr_isError(result)) return is_sleep || sr_Res(result) == 0 ? c->asked : 0;
    if (!is_sleep || sr_Err(result) != VKI_EINTR) return 0;
    return read_time(arguments[number == __NR_nanosleep ? 1 : 3], SECOND, &rest) && rest < c->asked
               ? c->asked - rest
               : c->asked;
}

/* The thread was told what a clock of the machine shows. */
static void was_told(ThreadId tid, UInt which, ULong moment) {
    if (which >= CLOCKS_READ) return;
    of(tid)->read[which] = moment;
    of(tid)->read_at[which] = turns_clock(tid);
}

void clocks_call_ended(ThreadId tid, UInt number, const UWord *arguments, SysRes result) {
    clock *c = of(tid);
    ULong moment;
    if (!sr_isError(result) && number == __NR_clock_gettime &&
        read_time(arguments[1], SECOND, &moment))
        was_told(tid, (UInt)arguments[0], moment);
    if (!sr_isError(result) && number == __NR_gettimeofday &&
        read_time(arguments[0], SECOND / 1000, &moment))
        was_told(tid, MACHINE_REALTIME, moment);
    if (!c->waits) return;
    c->waits = False;
    moves_to(tid, c->start + in_cycles(waited(c, number, arguments, result)));
}
