/* In the last round of its destructors a thread still reads its set. Nothing happens to it any
 * more, and no handler is called. */
#define _DEFAULT_SOURCE
#include "papi.h"
#include "wanted.h"
#include <limits.h>
#include <pthread.h>
#include <unistd.h>

#define INSTRUCTIONS 255

static pthread_key_t key;
static int set = PAPI_NULL, told;
static long long before, after;

static void handler(int of, void *address, long long vector, void *context) {
    long long count;
    (void)address; (void)vector; (void)context;
    WANT(PAPI_read(of, &count), PAPI_OK);
    told++;
}

static void end(void *kept) {
    static _Thread_local int rounds;
    if (++rounds < PTHREAD_DESTRUCTOR_ITERATIONS) {
        WANT(pthread_setspecific(key, kept), 0);
        return;
    }
    uint32_t went = 1;
    const int before_it = told;
    WANT(PAPI_read(set, &after), PAPI_OK);
    WANT(kistalub_go(1, &went), PAPI_OK);
    WANT(went, 0);
    WANT(PAPI_stop(set, &after), PAPI_OK);
    WANT(PAPI_start(set), PAPI_OK);
    WANT(PAPI_reset(set), PAPI_OK);
    WANT(told, before_it);
}

static void *work(void *unused) {
    int event;
    WANT(PAPI_create_eventset(&set), PAPI_OK);
    WANT(PAPI_event_name_to_code("INST_RETIRED", &event), PAPI_OK);
    WANT(PAPI_add_event(set, event), PAPI_OK);
    WANT(PAPI_overflow(set, event, 256, 0, handler), PAPI_OK);
    WANT(PAPI_start(set), PAPI_OK);
    WANT(PAPI_read(set, &before), PAPI_OK);
    WANT(PAPI_read(set, &before), PAPI_OK);
    WANT(before, 2 * INSTRUCTIONS);
    WANT(told, 1);
    WANT(pthread_setspecific(key, &key), 0);
    return unused;
}

int main(void) {
    pthread_t thread;
    alarm(PATIENCE);
    setenv("KISTALUB_STEP", "1", 1);
    WANT(PAPI_library_init(PAPI_VER_CURRENT), PAPI_VER_CURRENT);
    WANT(pthread_key_create(&key, end), 0);
    WANT(pthread_create(&thread, NULL, work, NULL), 0);
    WANT(pthread_join(thread, NULL), 0);
    WANT(after, before);
    PAPI_shutdown();
    puts("nothing happens any more");
    return 0;
}
