/* Which thread has which stream: that of the number it asks for, or the next one by the order of
 * first calls. */
#include "papi.h"
#include "wanted.h"
#include <pthread.h>

#define THREADS 8

static long counted(void) {
    int set = PAPI_NULL;
    long long count;
    WANT(PAPI_create_eventset(&set), PAPI_OK);
    WANT(PAPI_add_named_event(set, "INST_RETIRED"), PAPI_OK);
    WANT(PAPI_start(set), PAPI_OK);
    WANT(kistalub_go(5, NULL), PAPI_OK);
    WANT(PAPI_stop(set, &count), PAPI_OK);
    return (long)count;
}

static void *numbered(void *number) {
    uint32_t own = *(const uint32_t *)number;
    WANT(kistalub_thread(own), PAPI_OK);
    WANT(kistalub_thread(own), PAPI_OK);
    WANT(kistalub_thread(own + 1), PAPI_EINVAL);
    WANT(counted(), own + 1); /* threads.N.stream retires N + 1 instructions */
    return NULL;
}

static void *by_order(void *number) {
    WANT(counted(), *(const uint32_t *)number + 1);
    return NULL;
}

static void *taken(void *unused) {
    WANT(kistalub_thread(0), PAPI_EINVAL);
    WANT(counted(), 2);
    return unused;
}

static void run(void *(*work)(void *), int count, int at_once) {
    pthread_t threads[THREADS];
    uint32_t numbers[THREADS];
    for (int i = 0; i < count; i++) {
        numbers[i] = (uint32_t)(i + 1);
        WANT(pthread_create(&threads[i], NULL, work, &numbers[i]), 0);
        if (!at_once) WANT(pthread_join(threads[i], NULL), 0);
    }
    for (int i = 0; i < count && at_once; i++) WANT(pthread_join(threads[i], NULL), 0);
}

static void begin(void) {
    WANT(PAPI_library_init(PAPI_VER_CURRENT), PAPI_VER_CURRENT);
    WANT(kistalub_thread(0), PAPI_OK);
    WANT(kistalub_thread(1), PAPI_EINVAL);
}

int main(void) {
    WANT(kistalub_thread(0), PAPI_ENOINIT);
    for (int i = 0; i < 20; i++) {
        begin();
        run(numbered, THREADS, 1);
        WANT(counted(), 1);
        PAPI_shutdown();
    }
    begin();
    run(numbered, THREADS, 1);
    /* The threads of before have ended, so that their numbers are free. */
    run(numbered, THREADS, 1);
    PAPI_shutdown();
    begin();
    run(by_order, THREADS, 0);
    PAPI_shutdown();
    begin();
    run(taken, 1, 1);
    PAPI_shutdown();
    puts("each has its stream");
    return 0;
}
