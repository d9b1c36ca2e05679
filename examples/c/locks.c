/* PAPI's two locks: one thread at a time is between them. */
#include "papi.h"
#include "wanted.h"
#include <pthread.h>

#define THREADS 4
#define TURNS 20000

static long counts[PAPI_NUM_LOCK];

static void *work(void *unused) {
    for (int i = 0; i < TURNS; i++) {
        int lock = i % PAPI_NUM_LOCK;
        WANT(PAPI_lock(lock), PAPI_OK);
        counts[lock]++;
        WANT(PAPI_unlock(lock), PAPI_OK);
    }
    return unused;
}

int main(void) {
    pthread_t threads[THREADS];
    WANT(PAPI_lock(-1), PAPI_EINVAL);
    WANT(PAPI_lock(PAPI_NUM_LOCK), PAPI_EINVAL);
    WANT(PAPI_unlock(PAPI_NUM_LOCK), PAPI_EINVAL);
    for (int i = 0; i < THREADS; i++) WANT(pthread_create(&threads[i], NULL, work, NULL), 0);
    for (int i = 0; i < THREADS; i++) WANT(pthread_join(threads[i], NULL), 0);
    printf("%ld and %ld turns\n", counts[PAPI_USR1_LOCK], counts[PAPI_USR2_LOCK]);
    return 0;
}
