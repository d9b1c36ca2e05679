/* The numbers of event sets. One that the program sees is the process's, the least that no set has.
 * The library of each thread numbers by itself. */
#include "posix.h"
#include "calls.h"
#include "codes.h"
#include "limits.h"
#include "locks.h"
#include "papi.h"
#include "process.h"
#include "sets.h"
#include "thread.h"

#include <pthread.h>
#include <stdatomic.h>
#include <stdint.h>
#include <stdlib.h>

#define FIRST_ROOM 64

/* By a number, the state whose library has the set, or NULL. Under kl_lock. */
static struct { thread_state **owners; uint32_t room; } taken;

/* The least number that is free. Under kl_lock. */
static int take_number(thread_state *t, uint32_t *number) {
    uint32_t least = 0;
    while (least < taken.room && taken.owners[least]) least++;
    if (least == taken.room) {
        uint32_t room = taken.room ? 2 * taken.room : FIRST_ROOM;
        thread_state **more = realloc(taken.owners, room * sizeof *more);
        if (!more) return PAPI_ENOMEM;
        for (uint32_t i = taken.room; i < room; i++) more[i] = NULL;
        taken.owners = more;
        taken.room = room;
    }
    taken.owners[least] = t;
    *number = least;
    return PAPI_OK;
}

/* The numbers of a library that has ended are not those of the next one. Under kl_lock. */
static void free_number(const thread_state *t, int number) {
    if (t->generation == atomic_load(&kl_generation)) taken.owners[number] = NULL;
}

int kl_number_set(thread_state *t, uint32_t own, int *set) {
    uint32_t number = 0;
    kl_set *s = calloc(1, sizeof *s);
    if (!s) return PAPI_ENOMEM;
    pthread_mutex_lock(&kl_lock);
    int code =
        t->generation == atomic_load(&kl_generation) ? take_number(t, &number) : PAPI_ENOINIT;
    pthread_mutex_unlock(&kl_lock);
    if (code == PAPI_OK) {
        code = kl_note(&t->own_sets, &t->own_set_count, number, own);
        if (code != PAPI_OK) {
            pthread_mutex_lock(&kl_lock);
            free_number(t, (int)number);
            pthread_mutex_unlock(&kl_lock);
        }
    }
    if (code != PAPI_OK) {
        free(s);
        return code;
    }
    s->number = *set = (int)number;
    t->sets[own] = s;
    t->set_count++;
    return PAPI_OK;
}

void kl_unnumber_set(thread_state *t, uint32_t own) {
    kl_set *s = t->sets[own];
    t->own_sets[s->number] = 0;
    t->sets[own] = NULL;
    t->set_count--;
    pthread_mutex_lock(&kl_lock);
    free_number(t, s->number);
    pthread_mutex_unlock(&kl_lock);
    free(s);
}

void kl_unnumber_sets(thread_state *t) {
    for (uint32_t own = 0; own < MOST_SETS; own++)
        if (t->sets[own]) kl_unnumber_set(t, own);
    free(t->own_sets);
    t->own_sets = NULL;
    t->own_set_count = 0;
}

void kl_forget_set_numbers(void) {
    pthread_mutex_lock(&kl_lock);
    free(taken.owners);
    taken.owners = NULL;
    taken.room = 0;
    pthread_mutex_unlock(&kl_lock);
}

/* The thread that has ended and that had a set, or NULL. */
static thread_state *ended_owner(int set) {
    pthread_mutex_lock(&kl_lock);
    thread_state *owner = set >= 0 && (uint32_t)set < taken.room ? taken.owners[set] : NULL;
    if (owner && !owner->has_ended) owner = NULL;
    pthread_mutex_unlock(&kl_lock);
    return owner;
}

/* A handler of a signal may have interrupted what holds the lock: it finds the thread's own sets
 * alone. */
thread_state *kl_owner_of(thread_state *t, int set) {
    static thread_state nobody = { .has_ended = 1 }; /* it has no set */
    if (kl_interrupts()) return t ? t : &nobody;
    if (t && kl_set_number(t, set) != UINT32_MAX) return t;
    kl_change_enters();
    pthread_mutex_lock(&kl_ended_lock);
    thread_state *owner = ended_owner(set);
    if (owner || !t) return owner ? owner : &nobody;
    pthread_mutex_unlock(&kl_ended_lock);
    kl_change_leaves();
    return t;
}

/* The library of a thread that has ended is closed with its last set. */
void kl_let_owner_go(thread_state *owner) {
    if (!owner->has_ended || kl_interrupts()) return;
    if (owner->set_count == 0) kl_close_library(owner);
    pthread_mutex_unlock(&kl_ended_lock);
    kl_change_leaves();
}
