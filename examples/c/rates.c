/* The first rate opens the library with support of threads; it may be asked for inside a region,
 * and by threads that live already. A thread that ends leaves no set. */
#define _GNU_SOURCE
#include "papi.h"
#include "wanted.h"
#include <pthread.h>
#include <unistd.h>

static void *ask(void *unused) {
    float real, own, rate;
    long long events;
    WANT(PAPI_ipc(&real, &own, &events, &rate), PAPI_OK);
    WANT(PAPI_rate_stop(), PAPI_OK);
    return unused;
}

static void *ask_and_end(void *unused) {
    float real, own, rate;
    long long events;
    WANT(PAPI_ipc(&real, &own, &events, &rate), PAPI_OK);
    return unused;
}

/* Where a cycle takes a microsecond, so does each occurrence. */
static void take_a_while(void) {
    float real, own, rate;
    long long events;
    setenv("KISTALUB_MHZ", "1", 1);
    WANT(PAPI_ipc(&real, &own, &events, &rate), PAPI_OK);
    WANT(kistalub_go(3, NULL), PAPI_OK);
    WANT(PAPI_ipc(&real, &own, &events, &rate), PAPI_OK);
    WANT((long long)((double)real * 1e9 + 0.5), 3000);
    WANT((long long)((double)own * 1e9 + 0.5), 3000);
    PAPI_shutdown();
    unsetenv("KISTALUB_MHZ");
}

int main(void) {
    pthread_t thread;
    int set = PAPI_NULL;
    take_a_while();
    ask(NULL);
    WANT(PAPI_is_initialized(), PAPI_LOW_LEVEL_INITED | PAPI_THREAD_LEVEL_INITED);
    WANT(PAPI_thread_id(), gettid());
    PAPI_shutdown();
    WANT(PAPI_library_init(PAPI_VER_CURRENT), PAPI_VER_CURRENT);
    WANT(PAPI_is_initialized(), PAPI_LOW_LEVEL_INITED);
    WANT(pthread_create(&thread, NULL, ask, NULL), 0);
    WANT(pthread_join(thread, NULL), 0);
    ask(NULL);
    WANT(pthread_create(&thread, NULL, ask_and_end, NULL), 0);
    WANT(pthread_join(thread, NULL), 0);
    WANT(PAPI_create_eventset(&set), PAPI_OK);
    WANT(set, 0);
    PAPI_shutdown();
    puts("each rate is told");
    return 0;
}
