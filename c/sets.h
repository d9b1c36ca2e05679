/* Event sets: their numbers, and their events. */
#ifndef KL_SETS_H
#define KL_SETS_H

#include "limits.h"
#include "papi.h"
#include "thread.h"
#include "watches.h"

#include <stddef.h>
#include <stdint.h>

#define MOST_EVENTS MOST_SET_EVENTS

/* What an event set has besides the model's part: what belongs to an event stands in the event's
 * place. */
struct kl_set {
    int number; /* the one that the program knows */
    PAPI_overflow_handler_t handler;
    int component; /* the one that it was assigned, from 1, or 0 */
    int domain;
    int multiplex_ns, multiplex_flags;
    int is_watched; /* an event has a watch */
    /* Of an event that was added as a preset the model does not have, or 0. */
    int preset_codes[MOST_EVENTS];
    uint32_t event_count;
    int runs;                  /* as far as it was started and stopped by calls that were made */
    int64_t last[MOST_EVENTS]; /* the values that were told last */
    int is_judged;             /* its events were looked at, as silent.c does */
    kl_watch watches[MOST_EVENTS];
};

/* sets.c. The codes are those of the thread's library; the place of an event is -1 if the set
 * does not have it. */
typedef struct { uint32_t codes[MOST_EVENTS]; uint64_t count; } kl_events;
int kl_events_in(thread_state *t, int set, kl_events *events);
int kl_index_in(const kl_events *events, uint32_t code);
int kl_is_stopped(thread_state *t, int set);
int kl_set_domain(thread_state *t, int set, int domain);

/* set_numbers.c. A set is given by the number that the program knows. `kl_set_number` is that of
 * the thread's library, which no set has if the thread has no such set; `kl_set_of` is NULL
 * then. */
static inline uint32_t kl_set_number(const thread_state *t, int set) {
    return set >= 0 && (uint32_t)set < t->own_set_count && t->own_sets[set] ? t->own_sets[set] - 1
                                                                            : UINT32_MAX;
}
static inline kl_set *kl_set_of(thread_state *t, int set) {
    uint32_t own = kl_set_number(t, set);
    return own < MOST_SETS ? t->sets[own] : NULL;
}
int kl_number_set(thread_state *t, uint32_t own, int *set);
void kl_unnumber_set(thread_state *t, uint32_t own);
void kl_unnumber_sets(thread_state *t);
void kl_forget_set_numbers(void);

/* The state whose library has a set: the calling thread's, or that of a thread that has ended,
 * which is then held until it is let go. A calling thread that has ended itself is NULL. */
thread_state *kl_owner_of(thread_state *t, int set);
void kl_let_owner_go(thread_state *owner);

#endif
