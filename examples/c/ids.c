/* Threads: their ids, the list of them, and what they keep. */
#include "papi.h"
#include "wanted.h"
#include <pthread.h>
#include <unistd.h>

#define THREADS 100

static pthread_barrier_t barrier;
static _Thread_local unsigned long own;

/* A function of the program that makes calls itself. */
static unsigned long own_id(void) {
    WANT(PAPI_get_multiplex(7), 0);
    return own;
}

static void *registers(void *id) {
    void *kept = &own;
    own = *(const unsigned long *)id;
    WANT(PAPI_unregister_thread(), PAPI_EMISC);
    WANT(PAPI_register_thread(), PAPI_OK);
    WANT(PAPI_thread_id(), own);
    WANT(PAPI_get_thr_specific(PAPI_USR1_TLS, &kept), PAPI_OK);
    WANT(kept == NULL, 1);
    WANT(PAPI_set_thr_specific(PAPI_USR1_TLS, &own), PAPI_OK);
    WANT(PAPI_get_thr_specific(PAPI_USR1_TLS, &kept), PAPI_OK);
    WANT(kept == &own, 1);
    pthread_barrier_wait(&barrier);
    pthread_barrier_wait(&barrier);
    if (own % 2) WANT(PAPI_unregister_thread(), PAPI_OK);
    return NULL;
}

/* The list while all threads live: each id once. */
static void list_all(void) {
    unsigned long ids[THREADS + 1];
    void *kept[THREADS + 1];
    char seen[THREADS + 1] = { 0 };
    PAPI_all_thr_spec_t all = { .num = THREADS + 1, .id = ids, .data = kept };
    int number = 0, with = 0;
    WANT(PAPI_list_threads(NULL, &number), PAPI_OK);
    WANT(number, THREADS + 1);
    WANT(PAPI_list_threads(ids, &number), PAPI_OK);
    for (int i = 0; i < number; i++) {
        WANT(ids[i] <= THREADS && !seen[ids[i]], 1);
        seen[ids[i]] = 1;
    }
    number = 3;
    WANT(PAPI_list_threads(ids, &number), PAPI_OK);
    WANT(number, 3);
    WANT(PAPI_get_thr_specific(PAPI_USR1_TLS | PAPI_TLS_ALL_THREADS, (void **)&all), PAPI_OK);
    WANT(all.num, THREADS + 1);
    for (int i = 0; i < all.num; i++) with += kept[i] != NULL;
    WANT(with, THREADS);
    all.num = 1;
    WANT(PAPI_get_thr_specific(PAPI_USR1_TLS | PAPI_TLS_ALL_THREADS, (void **)&all), PAPI_OK);
    WANT(all.num, 1);
}

static void threads(void) {
    pthread_t made[THREADS];
    unsigned long ids[THREADS], left[THREADS + 1];
    int number = THREADS + 1;
    WANT(PAPI_thread_init(own_id), PAPI_OK);
    WANT(PAPI_is_initialized(), PAPI_LOW_LEVEL_INITED | PAPI_THREAD_LEVEL_INITED);
    WANT(PAPI_thread_init(own_id), PAPI_OK);
    WANT(pthread_barrier_init(&barrier, NULL, THREADS + 1), 0);
    for (int i = 0; i < THREADS; i++) {
        ids[i] = (unsigned long)i + 1;
        WANT(pthread_create(&made[i], NULL, registers, &ids[i]), 0);
    }
    pthread_barrier_wait(&barrier);
    list_all();
    pthread_barrier_wait(&barrier);
    for (int i = 0; i < THREADS; i++) WANT(pthread_join(made[i], NULL), 0);
    WANT(pthread_barrier_destroy(&barrier), 0);
    /* those that unregistered are not listed any more */
    WANT(PAPI_list_threads(left, &number), PAPI_OK);
    WANT(number, 1 + THREADS / 2);
    for (int i = 0; i < number; i++) WANT(left[i] % 2, 0);
}

static void *waits(void *unused) {
    WANT(PAPI_register_thread(), PAPI_OK);
    pthread_barrier_wait(&barrier);
    pthread_barrier_wait(&barrier);
    WANT(PAPI_unregister_thread(), PAPI_OK);
    return unused;
}

/* While there are two threads no function is taken. */
static void after_a_second_thread(void) {
    pthread_t other;
    WANT(PAPI_library_init(PAPI_VER_CURRENT), PAPI_VER_CURRENT);
    WANT(pthread_barrier_init(&barrier, NULL, 2), 0);
    WANT(pthread_create(&other, NULL, waits, NULL), 0);
    pthread_barrier_wait(&barrier);
    WANT(PAPI_thread_init(own_id), PAPI_EINVAL);
    WANT(PAPI_is_initialized(), PAPI_LOW_LEVEL_INITED);
    pthread_barrier_wait(&barrier);
    WANT(pthread_join(other, NULL), 0);
    WANT(pthread_barrier_destroy(&barrier), 0);
    WANT(PAPI_thread_init(own_id), PAPI_OK);
    PAPI_shutdown();
}

/* A function that ends the library in which it is called. */
static unsigned long last_id(void) {
    PAPI_shutdown();
    return 1;
}

static void ended_by_its_id(void) {
    WANT(PAPI_library_init(PAPI_VER_CURRENT), PAPI_VER_CURRENT);
    WANT(PAPI_thread_init(last_id), PAPI_ENOINIT);
    WANT(PAPI_is_initialized(), PAPI_NOT_INITED);
}

int main(void) {
    int number = 1;
    unsigned long id;
    void *kept;
    WANT(PAPI_thread_id(), (unsigned long)PAPI_EMISC);
    WANT(PAPI_thread_init(own_id), PAPI_ENOINIT);
    WANT(PAPI_list_threads(NULL, &number), PAPI_ENOINIT);
    WANT(PAPI_library_init(PAPI_VER_CURRENT), PAPI_VER_CURRENT);
    /* after PAPI_library_init there is one thread, and its id is that of the process */
    WANT(PAPI_list_threads(&id, &number), PAPI_OK);
    WANT(number, 1);
    WANT(id, (unsigned long)getpid());
    WANT(PAPI_list_threads(NULL, NULL), PAPI_EINVAL);
    number = 0;
    WANT(PAPI_list_threads(&id, &number), PAPI_EINVAL);
    WANT(PAPI_set_thr_specific(PAPI_NUM_TLS, NULL), PAPI_EINVAL);
    WANT(PAPI_set_thr_specific(-1, NULL), PAPI_EINVAL);
    WANT(PAPI_get_thr_specific(PAPI_NUM_TLS, &kept), PAPI_EINVAL);
    WANT(PAPI_get_thr_specific(PAPI_USR1_TLS, NULL), PAPI_EINVAL);
    threads();
    WANT(PAPI_unregister_thread(), PAPI_OK);
    WANT(PAPI_unregister_thread(), PAPI_EMISC);
    PAPI_shutdown();
    /* without a function an id is that of the process, and there is one for the whole life of the
     * library */
    WANT(PAPI_library_init(PAPI_VER_CURRENT), PAPI_VER_CURRENT);
    WANT(PAPI_is_initialized(), PAPI_LOW_LEVEL_INITED);
    WANT(PAPI_thread_init(NULL), PAPI_OK);
    WANT(PAPI_is_initialized(), PAPI_LOW_LEVEL_INITED | PAPI_THREAD_LEVEL_INITED);
    WANT(PAPI_thread_id(), (unsigned long)PAPI_EMISC);
    WANT(PAPI_thread_init(own_id), PAPI_OK);
    WANT(PAPI_thread_id(), (unsigned long)PAPI_EMISC);
    PAPI_shutdown();
    after_a_second_thread();
    ended_by_its_id();
    puts("each as wanted");
    return 0;
}
