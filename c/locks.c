/* The locks of all sources, what a fork does with them, and those of the program. */
#include "posix.h"
#include "calls.h"
#include "locks.h"
#include "papi.h"

#include <pthread.h>
#include <semaphore.h>
#include <stddef.h>

pthread_mutex_t kl_region_lock = PTHREAD_MUTEX_INITIALIZER;
pthread_mutex_t kl_beginning = PTHREAD_MUTEX_INITIALIZER;
pthread_mutex_t kl_ended_lock = PTHREAD_MUTEX_INITIALIZER;
pthread_mutex_t kl_component_lock = PTHREAD_MUTEX_INITIALIZER;
pthread_mutex_t kl_machine_lock = PTHREAD_MUTEX_INITIALIZER;
pthread_mutex_t kl_asked_lock = PTHREAD_MUTEX_INITIALIZER;
pthread_mutex_t kl_stream_lock = PTHREAD_MUTEX_INITIALIZER;
pthread_mutex_t kl_kinds_lock = PTHREAD_MUTEX_INITIALIZER;
pthread_mutex_t kl_lock = PTHREAD_MUTEX_INITIALIZER;
pthread_mutex_t kl_heap_lock = PTHREAD_MUTEX_INITIALIZER;

/* The order of locks.h. */
static pthread_mutex_t *const in_order[] = {
    &kl_region_lock, &kl_beginning, &kl_ended_lock, &kl_component_lock, &kl_machine_lock,
    &kl_asked_lock, &kl_stream_lock, &kl_kinds_lock, &kl_lock, &kl_heap_lock,
};
#define LOCKS (sizeof in_order / sizeof *in_order)

static void (*in_child)(void);

static void before_fork(void) {
    for (size_t i = 0; i < LOCKS; i++) pthread_mutex_lock(in_order[i]);
}

static void after_fork(void) {
    for (size_t i = LOCKS; i > 0; i--) pthread_mutex_unlock(in_order[i - 1]);
}

static void child_begins(void) {
    in_child();
    after_fork();
}

int kl_guard_forks(void (*child)(void)) {
    in_child = child;
    return pthread_atfork(before_fork, after_fork, child_begins) ? PAPI_ENOMEM : PAPI_OK;
}

int kl_no_cancellation(void) {
    if (kl_calls.uncancelled++ == 0)
        pthread_setcancelstate(PTHREAD_CANCEL_DISABLE, &kl_calls.cancelled_before);
    return 0;
}

void kl_cancel_again(const int *unused) {
    (void)unused;
    if (kl_calls.uncancelled == 1) pthread_setcancelstate(kl_calls.cancelled_before, NULL);
    kl_calls.uncancelled--; /* afterwards: a handler of a signal may jump out in between */
}

/* The program's locks: semaphores of 0 or 1, so that any thread may unlock one, as in PAPI. A fork
 * and a handler that jumps out leave nothing of a thread that waits for one. */
static sem_t locks[PAPI_NUM_LOCK];

__attribute__((constructor)) static void make_locks(void) {
    for (int i = 0; i < PAPI_NUM_LOCK; i++) sem_init(&locks[i], 0, 1);
}

/* In PAPI a thread that waits for a lock is not cancelled either. What was unlocked twice is locked
 * once. */
int PAPI_lock(int lock) {
    CALL(PAPI_lock);
    NO_CANCELLATION;
    if (lock < 0 || lock >= PAPI_NUM_LOCK) RETURN(PAPI_EINVAL);
    while (sem_wait(&locks[lock])) {}
    while (!sem_trywait(&locks[lock])) {}
    return PAPI_OK;
}

int PAPI_unlock(int lock) {
    CALL(PAPI_unlock);
    int is_free;
    if (lock < 0 || lock >= PAPI_NUM_LOCK) RETURN(PAPI_EINVAL);
    sem_getvalue(&locks[lock], &is_free);
    if (!is_free) sem_post(&locks[lock]);
    return PAPI_OK;
}
