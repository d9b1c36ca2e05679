#include "futexes.h"

#include "pub_tool_aspacemgr.h"
#include "pub_tool_libcbase.h"
#include "pub_tool_mallocfree.h"
#include "pub_tool_vkiscnums.h"

#include "clocks.h"
#include "inner.h"
#include "turns.h"

/* linux/futex.h */
enum {
    WAIT = 0,
    WAKE = 1,
    REQUEUE = 3,
    CMP_REQUEUE = 4,
    WAKE_OP = 5,
    WAIT_BITSET = 9,
    WAKE_BITSET = 10
};
enum { PRIVATE = 128, BY_REALTIME = 256, ALL_BITS = -1, TIMED_OUT = 110 /* ETIMEDOUT */ };

/* Where a thread waits, 0 if it does not, and when it came. */
typedef struct {
    Addr at;
    UInt bits;
    ULong came;
} waiter;

typedef struct {
    Addr at, other;
    UInt command, value, third;
    Long second;
    Bool is_private, by_realtime;
} futex;

static waiter *waiters; /* by thread */
static UInt waiting_ones;
static ThreadId last; /* none behind it has waited yet */
static ULong came;

static waiter *waiter_of(ThreadId tid) {
    if (!waiters) waiters = VG_(calloc)("futexes", VG_N_THREADS, sizeof *waiters);
    return &waiters[tid];
}

static Bool is_there(Addr at) {
    return !(at & 3) && VG_(am_is_valid_for_client)(at, sizeof(UInt), VKI_PROT_READ);
}

static UInt word_at(Addr at) { return *(volatile UInt *)at; }

/* The thread that waits longest at an address, or 0. */
static ThreadId first_at(Addr at, UInt bits) {
    ThreadId found = 0;
    for (ThreadId tid = 1; waiting_ones && tid <= last; tid++) {
        const waiter *w = waiter_of(tid);
        if (w->at == at && w->bits & bits && (!found || w->came < waiter_of(found)->came))
            found = tid;
    }
    return found;
}

Long futex_wake(Addr at, Long most, UInt bits) {
    Long woken = 0;
    for (ThreadId tid; woken < most && (tid = first_at(at, bits)); woken++) {
        waiter_of(tid)->at = 0;
        waiting_ones--;
        clocks_join(tid, turns_owner());
        turns_wake(tid);
    }
    return woken;
}

static Long moves(Addr from, Addr to, Long most) {
    Long moved = 0;
    for (ThreadId tid; moved < most && from != to && (tid = first_at(from, (UInt)ALL_BITS));
         moved++) {
        waiter_of(tid)->at = to;
        waiter_of(tid)->came = ++came;
    }
    return moved;
}

/* Threads of other processes that wait in the system are woken there. */
static Long wakes(const futex *f, Addr at, Long most, UInt bits) {
    Long woken = futex_wake(at, most, bits);
    if (f->is_private || woken >= most) return woken;
    SysRes others =
        VG_(do_syscall)(__NR_futex, at, WAKE_BITSET, (UWord)(most - woken), 0, 0, bits, 0, 0);
    return woken + (sr_isError(others) ? 0 : (Long)sr_Res(others));
}

static Long waits(ThreadId me, const futex *f, Addr time, UInt bits, const vki_sigset_t *blocked) {
    waiting w = {.until = NO_END,
                 .machine_until = NO_END,
                 .blocked = blocked,
                 .word = f->is_private ? NULL : (const volatile UInt *)f->at,
                 .value = f->value};
    if (word_at(f->at) != f->value) return -VKI_EAGAIN;
    if (time)
        clocks_end_of_wait(me, f->command == WAIT_BITSET,
                           f->by_realtime ? MACHINE_REALTIME : MACHINE_MONOTONIC, time, &w.until,
                           &w.machine_until);
    ULong began = turns_clock(me);
    *waiter_of(me) = (waiter){f->at, bits, ++came};
    waiting_ones++;
    if (last < me) last = me;
    why_woken why = turns_waits(&w);
    if (waiter_of(me)->at) {
        waiter_of(me)->at = 0;
        waiting_ones--;
    }
    if (why == TIME_IS_OUT) clocks_waited(me, (w.until - began) * BLOCK_NANOSECONDS);
    return why == WOKEN ? 0 : why == TIME_IS_OUT ? -TIMED_OUT : -VKI_EINTR;
}

/* The operation that FUTEX_WAKE_OP carries out on the second word, and its comparison with what was
 * there. */
static Bool operates(const futex *f) {
    UInt code = f->third, operand = code >> 12 & 0xfff, compared = code & 0xfff,
         old = word_at(f->other), to = operand;
    if (code >> 31) operand = 1u << (operand & 31);
    switch (code >> 28 & 7) {
    case 0: to = operand; break;
    case 1: to = old + operand; break;
    case 2: to = old | operand; break;
    case 3: to = old & ~operand; break;
    default: to = old ^ operand; break;
    }
    *(volatile UInt *)f->other = to;
    Int left = (Int)old, right = (Int)(compared << 20) >> 20;
    switch (code >> 24 & 15) {
    case 0: return left == right;
    case 1: return left != right;
    case 2: return left < right;
    case 3: return left <= right;
    case 4: return left > right;
    default: return left >= right;
    }
}

static Bool time_is_right(Addr time) {
    const struct vki_timespec *t = (const struct vki_timespec *)time;
    if (!time) return True;
    return VG_(am_is_valid_for_client)(time, sizeof *t, VKI_PROT_READ) && t->tv_sec >= 0 &&
           t->tv_nsec >= 0 && t->tv_nsec < 1000000000;
}

static Bool two_words(const futex *f) {
    return is_there(f->other) &&
           (f->command != WAKE_OP ||
            VG_(am_is_valid_for_client)(f->other, sizeof(UInt), VKI_PROT_WRITE));
}

Bool futex_call(ThreadId me, const VexGuestAMD64State *s, const vki_sigset_t *blocked,
                Long *answer) {
    UInt words = (UInt)s->guest_RSI;
    futex f = {.at = s->guest_RDI,
               .other = s->guest_R8,
               .command = words & ~(UInt)(PRIVATE | BY_REALTIME),
               .value = (UInt)s->guest_RDX,
               .third = (UInt)s->guest_R9,
               .second = (Int)s->guest_R10,
               .is_private = (words & PRIVATE) != 0,
               .by_realtime = (words & BY_REALTIME) != 0};
    if (!is_there(f.at)) return False;
    Long most = (Int)f.value;
    switch (f.command) {
    case WAIT:
    case WAIT_BITSET:
        if (!time_is_right(s->guest_R10) || (f.command == WAIT_BITSET && !f.third)) return False;
        *answer =
            waits(me, &f, s->guest_R10, f.command == WAIT ? (UInt)ALL_BITS : f.third, blocked);
        return True;
    case WAKE: *answer = wakes(&f, f.at, most, (UInt)ALL_BITS); return True;
    case WAKE_BITSET: *answer = f.third ? wakes(&f, f.at, most, f.third) : -VKI_EINVAL; return True;
    case REQUEUE:
    case CMP_REQUEUE:
    case WAKE_OP: break;
    default: return False;
    }
    if (!two_words(&f)) return False;
    if (f.command == CMP_REQUEUE && word_at(f.at) != f.third) *answer = -VKI_EAGAIN;
    else if (f.command == WAKE_OP) {
        Bool wakes_others = operates(&f);
        *answer = wakes(&f, f.at, most, (UInt)ALL_BITS);
        if (wakes_others) *answer += wakes(&f, f.other, f.second, (UInt)ALL_BITS);
    } else {
        Long woken = wakes(&f, f.at, most, (UInt)ALL_BITS);
        *answer = woken + moves(f.at, f.other, f.second);
    }
    return True;
}

void futexes_of_child(void) {
    waiting_ones = 0;
    if (waiters) VG_(memset)(waiters, 0, VG_N_THREADS * sizeof *waiters);
}
