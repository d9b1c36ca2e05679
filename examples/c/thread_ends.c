/* Threads end: their destructors count still, what they had is known by its number until it is
 * destroyed, and they stay listed. */
#include "papi.h"
#include "wanted.h"
#include <limits.h>
#include <pthread.h>
#include <time.h>

/* In the last round ThreadSanitizer knows the thread no more. */
#ifdef __SANITIZE_THREAD__
#define ENDINGS 3
#else
#define ENDINGS 4
#endif
#define FIRST 255
#define MANY 300
#define MOST_SECONDS 60

static pthread_key_t early, late;
static int stopped, rounds_before;
static long long value;

static int started(void) {
    int set = PAPI_NULL;
    WANT(PAPI_create_eventset(&set), PAPI_OK);
    WANT(PAPI_add_named_event(set, "INST_RETIRED"), PAPI_OK);
    WANT(PAPI_start(set), PAPI_OK);
    return set;
}

/* A tool stops its set in a destructor of its own, in the first round or in a later one. In the
 * first one it may do all else, too. */
static void stop_at_end(void *kept) {
    static _Thread_local int rounds;
    int event;
    if (rounds++ < rounds_before) {
        pthread_setspecific(early, kept);
        return;
    }
    if (rounds_before == 0) WANT(PAPI_event_name_to_code("CYCLES", &event), PAPI_OK);
    WANT(PAPI_stop(*(int *)kept, &value), PAPI_OK);
    stopped++;
}

static void *with_key(void *key) {
    static _Thread_local int set;
    set = started();
    WANT(kistalub_go(2, NULL), PAPI_OK);
    WANT(pthread_setspecific(*(pthread_key_t *)key, &set), 0);
    return NULL;
}

static void run(void *(*work)(void *), void *with) {
    pthread_t thread;
    WANT(pthread_create(&thread, NULL, work, with), 0);
    WANT(pthread_join(thread, NULL), 0);
}

static void in_destructors(void) {
    pthread_key_t *const keys[] = { &early, &late, &early, &early };
    for (int i = 0; i < ENDINGS; i++) {
        rounds_before = i < 2 ? 0 : PTHREAD_DESTRUCTOR_ITERATIONS - 4 + i;
        value = -1;
        run(with_key, keys[i]);
        WANT(value, 2 * FIRST);
        WANT(stopped, i + 1);
    }
}

static void *leave_set(void *set) {
    *(int *)set = started();
    WANT(PAPI_set_thr_specific(PAPI_USR1_TLS, set), PAPI_OK);
    WANT(kistalub_go(1, NULL), PAPI_OK);
    return NULL;
}

/* A set of a thread that has ended is read and stopped by its number, and no other set has the
 * number before it is destroyed. Who did that can be cancelled as before. */
static void by_number(void) {
    int left = PAPI_NULL, own, events[2], number = 2, status, cancelled = -1;
    long long count = 1;
    run(leave_set, &left);
    own = started();
    WANT(own != left, 1);
    WANT(PAPI_state(left, &status), PAPI_OK);
    WANT(status, PAPI_RUNNING);
    WANT(PAPI_read(left, &count), PAPI_OK);
    WANT(count, FIRST);
    WANT(PAPI_accum(left, &count), PAPI_OK);
    WANT(count, 2 * FIRST);
    WANT(PAPI_reset(left), PAPI_OK);
    WANT(PAPI_stop(left, &count), PAPI_OK);
    WANT(count, 0);
    WANT(PAPI_list_events(left, events, &number), PAPI_OK);
    WANT(number, 1);
    WANT(PAPI_cleanup_eventset(left), PAPI_OK);
    status = left;
    WANT(PAPI_destroy_eventset(&left), PAPI_OK);
    WANT(PAPI_read(status, &count), PAPI_ENOEVST);
    WANT(PAPI_stop(own, &count), PAPI_OK);
    left = PAPI_NULL;
    WANT(PAPI_create_eventset(&left), PAPI_OK);
    WANT(left, status);
    WANT(PAPI_destroy_eventset(&left), PAPI_OK);
    WANT(pthread_setcancelstate(PTHREAD_CANCEL_ENABLE, &cancelled), 0);
    WANT(cancelled, PTHREAD_CANCEL_ENABLE);
    WANT(PAPI_cleanup_eventset(own), PAPI_OK);
    WANT(PAPI_destroy_eventset(&own), PAPI_OK);
}

static int listed(void *pointer) {
    unsigned long ids[64];
    void *kept[64];
    PAPI_all_thr_spec_t all = { 64, ids, kept };
    int found = 0;
    WANT(PAPI_get_thr_specific(PAPI_USR1_TLS | PAPI_TLS_ALL_THREADS, (void **)&all), PAPI_OK);
    for (int i = 0; i < all.num; i++) found += kept[i] == pointer;
    return found;
}

static void *unregister(void *kept) {
    int number = 0, before;
    WANT(PAPI_list_threads(NULL, &before), PAPI_OK);
    WANT(PAPI_register_thread(), PAPI_OK);
    WANT(PAPI_set_thr_specific(PAPI_USR1_TLS, kept), PAPI_OK);
    WANT(PAPI_unregister_thread(), PAPI_OK);
    WANT(PAPI_list_threads(NULL, &number), PAPI_OK);
    WANT(number, before);
    WANT(PAPI_num_components() > 0, 1);
    WANT(PAPI_list_threads(NULL, &number), PAPI_OK);
    WANT(number, before + 1);
    WANT(PAPI_unregister_thread(), PAPI_OK);
    return NULL;
}

/* A thread that has ended stays in the list with its pointer, unless it unregistered. */
static void in_the_list(void) {
    int left = PAPI_NULL, number, after;
    WANT(PAPI_list_threads(NULL, &number), PAPI_OK);
    run(leave_set, &left);
    WANT(PAPI_list_threads(NULL, &after), PAPI_OK);
    WANT(after, number + 1);
    WANT(listed(&left), 1);
    run(unregister, &after);
    WANT(PAPI_list_threads(NULL, &after), PAPI_OK);
    WANT(after, number + 1);
}

static void *come_and_go(void *unused) {
    int set = started();
    WANT(PAPI_stop(set, NULL), PAPI_OK);
    WANT(PAPI_cleanup_eventset(set), PAPI_OK);
    WANT(PAPI_destroy_eventset(&set), PAPI_OK);
    return unused;
}

int main(void) {
    WANT(pthread_key_create(&early, stop_at_end), 0);
    WANT(PAPI_library_init(PAPI_VER_CURRENT), PAPI_VER_CURRENT);
    WANT(pthread_key_create(&late, stop_at_end), 0);
    in_destructors();
    by_number();
    in_the_list();
    time_t begun = time(NULL);
    for (int i = 0; i < MANY; i++) run(come_and_go, NULL);
    WANT(time(NULL) - begun < MOST_SECONDS, 1);
    PAPI_shutdown();
    puts("each thread ends as in PAPI");
    return 0;
}
