/* Under tools/count: threads end, one after the other, and leave no room for lines behind. Then the
 * library ends. */
#include "papi.h"
#include "wanted.h"
#include <malloc.h>
#include <pthread.h>

#define THREADS 4
#define ROOM 32768 /* for that they stay listed */
#define TURNS 10000

static void *work(void *unused) {
    int set = PAPI_NULL;
    long long count;
    WANT(PAPI_create_eventset(&set), PAPI_OK);
    WANT(PAPI_add_named_event(set, "PAPI_TOT_INS"), PAPI_OK);
    WANT(PAPI_start(set), PAPI_OK);
    for (volatile int i = 0; i < TURNS; i++) {}
    WANT(PAPI_stop(set, &count), PAPI_OK);
    WANT(count > 2 * TURNS, 1);
    WANT(PAPI_cleanup_eventset(set), PAPI_OK);
    WANT(PAPI_destroy_eventset(&set), PAPI_OK);
    return unused;
}

int main(void) {
    size_t before = 0;
    WANT(PAPI_library_init(PAPI_VER_CURRENT), PAPI_VER_CURRENT);
    for (int i = 0; i < THREADS; i++) {
        pthread_t thread;
        WANT(pthread_create(&thread, NULL, work, NULL), 0);
        WANT(pthread_join(thread, NULL), 0);
        if (i == 0) before = mallinfo2().uordblks;
    }
    WANT(mallinfo2().uordblks < before + ROOM, 1);
    PAPI_shutdown();
    puts("each thread counted");
    return 0;
}
