/* Threads make calls, and begin and end the library, over and over again. Each call answers, and
 * what a thread counts within one library is whole. */
#include "papi.h"
#include "wanted.h"
#include <pthread.h>
#include <stdatomic.h>

#define THREADS 4
#define LIVES 25
#define OCCURRENCES 8
#define INSTRUCTIONS 255

static atomic_int is_over, counted;

static void handler(int set, void *address, long long vector, void *context) {
    long long count;
    int answer = PAPI_read(set, &count);
    (void)address; (void)vector; (void)context;
    WANT(answer == PAPI_OK || answer == PAPI_ENOINIT || answer == PAPI_ENOEVST, 1);
}

/* Counts the whole stream, unless the library ends meanwhile. */
static void count(void) {
    int set = PAPI_NULL, event, code = PAPI_create_eventset(&set);
    long long value = 0;
    if (code == PAPI_OK) code = PAPI_event_name_to_code("INST_RETIRED", &event);
    if (code == PAPI_OK) code = PAPI_add_event(set, event);
    if (code == PAPI_OK) code = PAPI_overflow(set, event, 300, 0, handler);
    if (code == PAPI_OK) code = PAPI_start(set);
    if (code == PAPI_OK) code = kistalub_go(OCCURRENCES + 1, NULL);
    if (code == PAPI_OK) code = PAPI_stop(set, &value);
    if (code == PAPI_OK) {
        /* A thread's stream happens once in a library. */
        WANT(value == 0 || value == OCCURRENCES * INSTRUCTIONS, 1);
        atomic_fetch_add(&counted, 1);
    }
    WANT(code == PAPI_OK || code == PAPI_ENOINIT || code == PAPI_ENOEVST || code == PAPI_ENOEVNT ||
             code == PAPI_ENOTRUN || code == PAPI_EINVAL,
         1);
    if (PAPI_cleanup_eventset(set) == PAPI_OK) PAPI_destroy_eventset(&set);
}

static void *work(void *unused) {
    unsigned long ids[THREADS + 1];
    for (int i = 0; !atomic_load(&is_over); i++) {
        int number = THREADS + 1;
        if (i % 3 == 0) PAPI_library_init(PAPI_VER_CURRENT);
        if (i % 7 == 0) PAPI_shutdown();
        count();
        PAPI_list_threads(ids, &number);
        PAPI_lock(PAPI_USR1_LOCK);
        PAPI_unlock(PAPI_USR1_LOCK);
    }
    return unused;
}

int main(void) {
    pthread_t threads[THREADS];
    for (int i = 0; i < THREADS; i++) WANT(pthread_create(&threads[i], NULL, work, NULL), 0);
    for (int life = 0; life < LIVES || !atomic_load(&counted); life++) {
        int begun = PAPI_library_init(PAPI_VER_CURRENT);
        WANT(begun == PAPI_VER_CURRENT || begun == PAPI_ENOINIT, 1);
        count();
        PAPI_set_domain(PAPI_DOM_ALL);
        PAPI_shutdown();
    }
    atomic_store(&is_over, 1);
    for (int i = 0; i < THREADS; i++) WANT(pthread_join(threads[i], NULL), 0);
    PAPI_shutdown();
    puts("each call answers");
    return 0;
}
