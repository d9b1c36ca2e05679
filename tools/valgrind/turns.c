#include "turns.h"

#include "libvex_trc_values.h"
#include "pub_tool_guest.h"
#include "pub_tool_libcbase.h"
#include "pub_tool_libcproc.h"
#include "pub_tool_mallocfree.h"
#include "pub_tool_vkiscnums.h"

#include "core.h"
#include "inner.h"
#include "places.h"

#define TURN 2000       /* blocks, if another thread can run */
#define LONE_TURN 20000 /* if none can: those that come back from the system ask for a turn then   \
                         */
#define OF_LIBRARY 64   /* blocks of the library's work that are one of the clock's */
#define LEAST_WAY 20    /* blocks that a thread which gives way is taken to have waited */

turn_order order;

static UInt begun;
static Int gate; /* 1: it is closed */
static Bool gives_way, stays, leaves_for_call;
static Int undetermined = -1;

static VexGuestAMD64State *running_state;
static Int given;

/* -- the machine's -- */

void gate_closes(void) {
    while (__atomic_exchange_n(&gate, 1, __ATOMIC_ACQUIRE))
        VG_(do_syscall)(__NR_sched_yield, 0, 0, 0, 0, 0, 0, 0, 0);
}

void gate_opens(void) { __atomic_store_n(&gate, 0, __ATOMIC_RELEASE); }

enum { BELL_WAITS = 128, BELL_RINGS = 129 }; /* FUTEX_WAIT and FUTEX_WAKE, of this process */

void ring(place *p) {
    __atomic_fetch_add(&p->bell, 1, __ATOMIC_RELEASE);
    VG_(do_syscall)(__NR_futex, (UWord)&p->bell, BELL_RINGS, 1, 0, 0, 0, 0, 0);
}

void hear(place *p, ULong nanoseconds) {
    struct vki_timespec time = {(Long)(nanoseconds / 1000000000), (Long)(nanoseconds % 1000000000)};
    Int heard = p->bell;
    gate_opens();
    VG_(do_syscall)
    (__NR_futex, (UWord)&p->bell, BELL_WAITS, (UWord)heard,
     nanoseconds == NO_END ? 0 : (UWord)&time, 0, 0, 0, 0);
    gate_closes();
}

ULong machine_nanoseconds(UInt clock) {
    struct vki_timespec time = {0, 0};
    VG_(do_syscall)(__NR_clock_gettime, clock, (UWord)&time, 0, 0, 0, 0, 0, 0);
    return (ULong)time.tv_sec * 1000000000 + (ULong)time.tv_nsec;
}

Int pending_signal(const vki_sigset_t *blocked) {
    vki_sigset_t pending;
    VG_(memset)(&pending, 0, sizeof pending);
    VG_(do_syscall)(__NR_rt_sigpending, (UWord)&pending, sizeof pending, 0, 0, 0, 0, 0, 0);
    ULong left = pending.sig[0] & ~blocked->sig[0] & ~(1UL << 63); /* but for the core's own */
    return left ? __builtin_ctzl(left) + 1 : 0;
}

/* -- whose turn it is -- */

static ThreadId thread_of(Int lwp) {
    for (UInt i = 0; i < order.alive_count; i++)
        if (order.places[order.alive[i]].lwp == lwp) return order.alive[i];
    if (order.alive_count == 1) { /* the first one, or a child of fork */
        order.places[order.alive[0]].lwp = lwp;
        return order.alive[0];
    }
    return 0;
}

/* When a thread could run, by its clock. */
static ULong ready_at(const place *p) {
    if (p->state == READY) return p->clock;
    return p->state == WAITS ? p->until : NO_END;
}

static Bool is_before(const place *a, const place *b) {
    ULong of_a = ready_at(a), of_b = ready_at(b);
    return of_a < of_b || (of_a == of_b && a->number < b->number);
}

/* The thread that is to run, and whether another could. */
static ThreadId next_thread(Bool *has_rival) {
    ThreadId best = 0;
    UInt count = 0;
    for (UInt i = 0; i < order.alive_count; i++) {
        const place *p = &order.places[order.alive[i]];
        if (ready_at(p) == NO_END) continue;
        count++;
        if (!best || is_before(p, &order.places[best])) best = order.alive[i];
    }
    *has_rival = count > 1;
    return best;
}

void pass_on(ThreadId from) {
    Bool has_rival;
    order.owner = next_thread(&has_rival);
    order.turn_left = has_rival ? TURN : LONE_TURN;
    order.turns++;
    if (order.owner && order.owner != from) ring(&order.places[order.owner]);
}

void wait_turn(ThreadId me) {
    while (order.owner != me) hear(&order.places[me], NO_END);
}

void has_rival_now(void) {
    if (order.turn_left > TURN) order.turn_left = TURN;
}

/* The clock of one that gives way is the least of the others that can run, which go first. */
static void give_way(place *me) {
    const place *first = NULL;
    me->clock += LEAST_WAY;
    for (UInt i = 0; i < order.alive_count; i++) {
        const place *p = &order.places[order.alive[i]];
        if (p != me && p->state == READY && !p->is_away && (!first || is_before(p, first)))
            first = p;
    }
    if (!first) return;
    ULong clock = first->clock + (first->number > me->number);
    if (me->clock < clock) me->clock = clock;
}

static void forget(ThreadId tid) {
    UInt i = 0;
    while (i < order.alive_count && order.alive[i] != tid) i++;
    if (i == order.alive_count) return;
    for (; i + 1 < order.alive_count; i++) order.alive[i] = order.alive[i + 1];
    order.alive_count--;
}

/* Those that wait and are to end with the process go on. */
static void wake_those_that_end(void) {
    for (UInt i = 0; i < order.alive_count; i++) {
        place *p = &order.places[order.alive[i]];
        if (p->state != WAITS || !VG_(is_exiting)(order.alive[i])) continue;
        p->looks = True;
        p->state = READY;
        p->clock = p->clock < order.now ? order.now : p->clock;
    }
}

/* -- the lock of Valgrind's core -- */

struct sched_lock {
    Int nothing;
};

static const HChar *lock_name(void) { return "turns"; }

/* The child of a fork makes the lock anew, and has one thread. */
static struct sched_lock *make_lock(void) {
    static struct sched_lock lock;
    gate = 0;
    if (!order.places) {
        order.places = VG_(calloc)("turns", VG_N_THREADS, sizeof *order.places);
        order.alive = VG_(calloc)("turns", VG_N_THREADS, sizeof *order.alive);
        return &lock;
    }
    order.alive[0] = order.owner;
    order.alive_count = 1;
    order.is_sending = False;
    order.places[order.owner].lwp = 0;
    return &lock;
}

static void drop_lock(struct sched_lock *lock) { (void)lock; }

static int lock_owner(struct sched_lock *lock) {
    (void)lock;
    return order.owner ? order.places[order.owner].lwp : 0;
}

void comes_back(place *me) {
    if (me->state != OUTSIDE) return;
    me->state = READY;
    if (me->clock < order.now) me->clock = order.now;
    if (undetermined < 0 && (order.turns > me->left_at + 1 || order.owner))
        undetermined = (Int)me->call;
    has_rival_now();
}

static void take_lock(struct sched_lock *lock) {
    (void)lock;
    gate_closes();
    ThreadId me = thread_of(VG_(gettid)());
    place *p = &order.places[me];
    comes_back(p);
    Bool is_mine = order.owner == me;
    p->is_away = False;
    if (!order.owner || (!is_mine && order.places[order.owner].is_away)) pass_on(me);
    wait_turn(me);
    gate_opens();
}

static void leave_lock(struct sched_lock *lock) {
    (void)lock;
    Bool is_kept = leaves_for_call || stays;
    leaves_for_call = stays = False;
    if (is_kept) return;
    gate_closes();
    ThreadId me = order.owner;
    place *p = &order.places[me];
    if (p->ends) forget(me);
    else if (gives_way || order.turn_left > 0) give_way(p);
    if (p->ends || order.turn_left > 0) wake_those_that_end();
    gives_way = False;
    pass_on(p->ends ? 0 : me);
    gate_opens();
}

const struct sched_lock_ops vgModuleLocal_linux_ticket_lock_ops = {
    lock_name, make_lock, drop_lock, lock_owner, take_lock, leave_lock};

void __wrap_vgPlain_acquire_BigLock(ThreadId tid, const HChar *who) {
    order.places[tid].lwp = VG_(gettid)();
    __real_vgPlain_acquire_BigLock(tid, who);
}

/* The core calls this from elsewhere only before a call of the system: whether the turn is kept is
 * known there. */
void __wrap_vgPlain_release_BigLock(ThreadId tid, Int status, const HChar *who) {
    leaves_for_call = True;
    __real_vgPlain_release_BigLock(tid, status, who);
}

/* -- turns -- */

/* The library's work takes nearly no time. */
static Long blocks_a_tick(void) {
    const core *c = core_of(order.owner);
    return c && c->is_in_library ? OF_LIBRARY : 1;
}

static void account(VexGuestAMD64State *state) {
    Int left = (Int)state->host_EvC_COUNTER, used = given - (left < 0 ? 0 : left);
    place *p = &order.places[order.owner];
    Long rate = blocks_a_tick(), ticks = (used + rate - 1) / rate;
    running_state = NULL;
    p->clock += (ULong)ticks;
    order.turn_left -= ticks;
    order.now = p->clock;
}

void __wrap_vgPlain_disp_run_translations(HWord *words, volatile void *at, Addr code) {
    VexGuestAMD64State *state = (VexGuestAMD64State *)at;
    Int whole = (Int)state->host_EvC_COUNTER;
    Long most = order.turn_left < 1 ? 1 : order.turn_left * blocks_a_tick();
    given = order.alive_count > 1 && most < whole ? (Int)most : whole;
    state->host_EvC_COUNTER = (UInt)given;
    running_state = state;
    __real_vgPlain_disp_run_translations(words, at, code);
    Int left = (Int)state->host_EvC_COUNTER;
    account(state);
    if (words[0] == VEX_TRC_JMP_YIELD) gives_way = True;
    if (gives_way || order.turn_left <= 0) state->host_EvC_COUNTER = left < 0 ? (UInt)-1 : 0;
    else if (left >= 0) state->host_EvC_COUNTER = (UInt)(left + whole - given);
}

/* A fault jumped out of the code. */
void turns_code_stops(ThreadId tid, ULong blocks) {
    (void)tid, (void)blocks;
    if (running_state) account(running_state);
}

ThreadId turns_owner(void) { return order.owner; }
Bool turns_are_all(void) { return order.alive_count + 1 >= VG_N_THREADS; }
Bool turns_are_shared(void) { return order.alive_count > 1; }
ULong turns_clock(ThreadId tid) { return order.places[tid].clock; }
Int undetermined_by(void) { return undetermined; }

void turns_stays(void) { stays = True; }

void turns_thread_begins(ThreadId parent, ThreadId tid) {
    gate_closes();
    order.places[tid] =
        (place){.number = begun++, .clock = begun > 1 ? order.places[parent].clock : 0};
    order.alive[order.alive_count++] = tid;
    if (!order.owner) order.owner = tid;
    has_rival_now();
    gate_opens();
}

void turns_thread_ends(ThreadId tid) {
    gate_closes();
    if (tid == order.owner) order.places[tid].ends = True;
    else forget(tid);
    gate_opens();
}

void turns_gives_way(void) {
    gate_closes();
    ThreadId me = order.owner;
    give_way(&order.places[me]);
    pass_on(me);
    wait_turn(me);
    gate_opens();
}
