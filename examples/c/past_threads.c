/* The library ends while threads are in their last destructors, in which they read the sets that
 * they leave, and while another thread reads these too. Each call answers, and one that reads a set
 * gives what it counted. */
#define _DEFAULT_SOURCE
#include "papi.h"
#include "wanted.h"
#include <limits.h>
#include <pthread.h>
#include <stdatomic.h>
#include <unistd.h>

/* In the last round ThreadSanitizer knows the thread no more. */
#ifdef __SANITIZE_THREAD__
#define LAST_ROUND (PTHREAD_DESTRUCTOR_ITERATIONS - 1)
#else
#define LAST_ROUND PTHREAD_DESTRUCTOR_ITERATIONS
#endif
#define LIVES 60
#define THREADS 3
#define READS 200
#define INSTRUCTIONS 255

static pthread_key_t key;
static atomic_int in_destructors, is_over, left[THREADS];
static _Thread_local int set = PAPI_NULL;

/* As far as the library goes on. */
static int is_ended(int code) { return code == PAPI_ENOINIT || code == PAPI_ENOEVST; }

static void read_set(int which) {
    long long count = -1;
    int state = 0, events[2], number = 2;
    const int code = PAPI_read(which, &count);
    WANT(code == PAPI_OK || is_ended(code), 1);
    if (code == PAPI_OK) WANT(count % INSTRUCTIONS, 0);
    const int listed = PAPI_list_events(which, events, &number);
    WANT(listed == PAPI_OK || is_ended(listed), 1);
    const int asked = PAPI_state(which, &state);
    WANT(asked == PAPI_OK || is_ended(asked), 1);
}

/* Many readings before the library ends, and after that. */
static void end(void *kept) {
    static _Thread_local int rounds;
    if (++rounds < LAST_ROUND) {
        WANT(pthread_setspecific(key, kept), 0);
        return;
    }
    WANT(PAPI_get_real_cyc(), 1);
    WANT(PAPI_num_components(), PAPI_ENOINIT); /* it does not begin as another thread */
    atomic_fetch_add(&in_destructors, 1);
    for (int i = 0; i < READS || PAPI_read(set, &(long long){ 0 }) == PAPI_OK; i++) read_set(set);
    WANT(kistalub_go(1, NULL), PAPI_ENOINIT);
}

static void *work(void *place) {
    WANT(PAPI_create_eventset(&set), PAPI_OK);
    WANT(PAPI_add_named_event(set, "INST_RETIRED"), PAPI_OK);
    WANT(PAPI_start(set), PAPI_OK);
    WANT(kistalub_go(1, NULL), PAPI_OK);
    atomic_store((atomic_int *)place, set);
    WANT(pthread_setspecific(key, &key), 0);
    return NULL;
}

static void *read_all(void *unused) {
    while (!atomic_load(&is_over))
        for (int i = 0; i < THREADS; i++) read_set(atomic_load(&left[i]));
    return unused;
}

static void live(void) {
    pthread_t threads[THREADS];
    atomic_store(&in_destructors, 0);
    WANT(PAPI_library_init(PAPI_VER_CURRENT), PAPI_VER_CURRENT);
    for (int i = 0; i < THREADS; i++) WANT(pthread_create(&threads[i], NULL, work, &left[i]), 0);
    while (atomic_load(&in_destructors) < THREADS) usleep(100);
    PAPI_shutdown();
    for (int i = 0; i < THREADS; i++) WANT(pthread_join(threads[i], NULL), 0);
}

int main(void) {
    pthread_t reader;
    alarm(PATIENCE);
    WANT(PAPI_library_init(PAPI_VER_CURRENT), PAPI_VER_CURRENT);
    WANT(pthread_key_create(&key, end), 0);
    PAPI_shutdown();
    WANT(pthread_create(&reader, NULL, read_all, NULL), 0);
    for (int i = 0; i < LIVES; i++) live();
    atomic_store(&is_over, 1);
    WANT(pthread_join(reader, NULL), 0);
    PAPI_shutdown();
    puts("each call answers");
    return 0;
}
