/* A thread is in regions of two libraries, under another number in each; another one asks for a
 * rate. When they end none of their sets is left. */
#define _DEFAULT_SOURCE
#include "papi.h"
#include "wanted.h"
#include <pthread.h>

static pthread_barrier_t turn;

static void region(void) {
    WANT(PAPI_hl_region_begin("region"), PAPI_OK);
    WANT(PAPI_hl_region_end("region"), PAPI_OK);
}

static void *work(void *unused) {
    WANT(kistalub_thread(3), PAPI_OK);
    region();
    pthread_barrier_wait(&turn); /* the library ends, and another one begins */
    pthread_barrier_wait(&turn);
    WANT(kistalub_thread(5), PAPI_OK);
    region();
    return unused;
}

static void *ask_rate(void *unused) {
    float real, own, rate;
    long long count;
    WANT(PAPI_ipc(&real, &own, &count, &rate), PAPI_OK);
    return unused;
}

static void is_none_left(void) {
    int set = PAPI_NULL;
    WANT(PAPI_create_eventset(&set), PAPI_OK);
    WANT(set, 0);
    WANT(PAPI_destroy_eventset(&set), PAPI_OK);
}

int main(void) {
    pthread_t thread;
    setenv("PAPI_EVENTS", "INST_RETIRED", 1);
    setenv("PAPI_OUTPUT_DIRECTORY", "/dev/null", 1); /* nothing is written */
    WANT(freopen("/dev/null", "w", stderr) != NULL, 1);
    WANT(pthread_barrier_init(&turn, NULL, 2), 0);
    WANT(PAPI_library_init(PAPI_VER_CURRENT), PAPI_VER_CURRENT);
    WANT(pthread_create(&thread, NULL, work, NULL), 0);
    pthread_barrier_wait(&turn);
    PAPI_shutdown();
    WANT(PAPI_library_init(PAPI_VER_CURRENT), PAPI_VER_CURRENT);
    pthread_barrier_wait(&turn);
    WANT(pthread_join(thread, NULL), 0);
    is_none_left();
    WANT(pthread_create(&thread, NULL, ask_rate, NULL), 0);
    WANT(pthread_join(thread, NULL), 0);
    is_none_left();
    PAPI_shutdown();
    puts("no set is left");
    return 0;
}
