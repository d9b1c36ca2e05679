/* Regions that do not match end the high level, also for threads that are inside regions. Each
 * thread's sets end with it, and the thread can count otherwise. */
#define _DEFAULT_SOURCE
#include "papi.h"
#include "wanted.h"
#include <pthread.h>

#define OCCURRENCES 4
#define INSTRUCTIONS 1020

static pthread_barrier_t inside, failed;

static void count(void) {
    int set = PAPI_NULL;
    long long count;
    WANT(PAPI_create_eventset(&set), PAPI_OK);
    WANT(PAPI_add_named_event(set, "INST_RETIRED"), PAPI_OK);
    WANT(PAPI_start(set), PAPI_OK);
    WANT(kistalub_go(OCCURRENCES, NULL), PAPI_OK);
    WANT(PAPI_stop(set, &count), PAPI_OK);
    WANT(count, INSTRUCTIONS);
}

static void *work(void *unused) {
    WANT(PAPI_hl_region_begin("other"), PAPI_OK);
    pthread_barrier_wait(&inside);
    pthread_barrier_wait(&failed);
    WANT(PAPI_hl_region_end("other"), PAPI_EMISC);
    WANT(PAPI_hl_stop(), PAPI_ENOEVNT);
    count();
    return unused;
}

int main(void) {
    pthread_t thread;
    setenv("PAPI_EVENTS", "INST_RETIRED", 1);
    setenv("PAPI_OUTPUT_DIRECTORY", "/dev/null", 1); /* nothing is written */
    WANT(pthread_barrier_init(&inside, NULL, 2) + pthread_barrier_init(&failed, NULL, 2), 0);
    WANT(PAPI_hl_region_begin("one"), PAPI_OK);
    WANT(pthread_create(&thread, NULL, work, NULL), 0);
    pthread_barrier_wait(&inside);
    WANT(PAPI_hl_region_end("another"), PAPI_EINVAL);
    pthread_barrier_wait(&failed);
    WANT(PAPI_hl_region_end("one"), PAPI_EMISC);
    WANT(PAPI_hl_stop(), PAPI_ENOEVNT);
    count();
    WANT(pthread_join(thread, NULL), 0);
    PAPI_shutdown();
    puts("each thread counts otherwise");
    return 0;
}
