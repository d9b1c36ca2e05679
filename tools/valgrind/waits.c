/* Threads that wait, and leave their turn to others. */
#include "turns.h"

#include "pub_tool_vkiscnums.h"

#include "inner.h"
#include "places.h"

#define ROUNDS 4
#define LOOKS_EVERY 100000000ULL /* nanoseconds, for signals from outside */
#define LOOKS_LATER 1000000ULL   /* for each thread */
#define SHARED_EVERY 1000000ULL  /* for words of other processes */

/* How long a thread that waits sleeps before it looks around. */
static ULong sleep_of(const waiting *w, Bool is_its_turn) {
    ULong most = w->word ? SHARED_EVERY : LOOKS_EVERY + LOOKS_LATER * order.alive_count;
    ULong time = is_its_turn ? machine_nanoseconds(MACHINE_MONOTONIC) : 0;
    if (is_its_turn && w->machine_until - time < most) return w->machine_until - time;
    return most;
}

/* A thread that waits is to go on for a reason from outside. */
static void comes_from_outside(place *p) {
    p->state = OUTSIDE;
    p->call = __NR_futex;
    comes_back(p);
}

static Bool is_changed(const waiting *w) { return w->word && *w->word != w->value; }

static Bool none_runs(void) { return !order.owner || order.places[order.owner].is_away; }

/* A word that another process changed. A thread of this one that changes it wakes those that wait
 * soon, if any of them runs. */
static Bool is_changed_outside(place *p, const waiting *w) {
    if (!is_changed(w)) p->changed_at = 0;
    else if (none_runs()) return True;
    else if (!p->changed_at) p->changed_at = order.turns;
    return p->changed_at && order.turns > p->changed_at + ROUNDS * order.alive_count;
}

/* Looks whether a thread that waits may go on. Its turn comes if its time is out, and until the
 * machine's is too it gives it to whoever comes back. */
static void look_around(ThreadId me, place *p, const waiting *w) {
    if (order.owner == me) {
        p->is_away = machine_nanoseconds(MACHINE_MONOTONIC) < w->machine_until;
        if (!p->is_away) p->state = READY;
    }
    if (p->state != WAITS || order.is_sending ||
        (!is_changed_outside(p, w) && !pending_signal(w->blocked)))
        return;
    comes_from_outside(p);
    p->looks = True;
    if (none_runs()) pass_on(me);
}

static why_woken wait_for(ThreadId me, place *p, const waiting *w) {
    while (True) {
        while (p->state == WAITS) {
            hear(p, sleep_of(w, order.owner == me));
            if (p->state == WAITS) look_around(me, p, w);
        }
        p->is_away = False;
        wait_turn(me);
        if (p->is_woken) return WOKEN;
        if (!p->looks) return TIME_IS_OUT;
        p->looks = False;
        if (VG_(is_exiting)(me) || pending_signal(w->blocked)) return HAS_SIGNAL;
        if (is_changed(w)) return WOKEN;
        p->state = WAITS;
        pass_on(me);
    }
}

why_woken turns_waits(const waiting *w) {
    gate_closes();
    ThreadId me = order.owner;
    place *p = &order.places[me];
    p->state = WAITS;
    p->looks = p->is_woken = False;
    p->changed_at = 0;
    p->until = w->until != NO_END && w->until < p->clock ? p->clock : w->until;
    pass_on(me);
    why_woken why = wait_for(me, p, w);
    if (why == TIME_IS_OUT && p->clock < p->until) p->clock = p->until;
    order.now = p->clock;
    gate_opens();
    return why;
}

static void make_ready(place *p) {
    p->state = READY;
    if (p->clock < order.places[order.owner].clock) p->clock = order.places[order.owner].clock;
    has_rival_now();
    ring(p);
}

void turns_wake(ThreadId tid) {
    gate_closes();
    order.places[tid].is_woken = True;
    if (order.places[tid].state == WAITS) make_ready(&order.places[tid]);
    gate_opens();
}

void turns_sends_signal(void) {
    gate_closes();
    order.is_sending = True;
    gate_opens();
}

void turns_look_for_signals(void) {
    gate_closes();
    order.is_sending = False;
    for (UInt i = 0; i < order.alive_count; i++) {
        place *p = &order.places[order.alive[i]];
        if (p->state != WAITS) continue;
        p->looks = True;
        make_ready(p);
    }
    gate_opens();
}

void turns_leaves_for(ULong blocks) {
    gate_closes();
    place *p = &order.places[order.owner];
    p->clock += blocks;
    p->is_away = True;
    pass_on(order.owner);
    gate_opens();
}

void turns_leaves(UInt call) {
    gate_closes();
    place *p = &order.places[order.owner];
    p->state = OUTSIDE;
    p->call = call;
    p->left_at = order.turns;
    pass_on(order.owner);
    gate_opens();
}
