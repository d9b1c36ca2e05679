/* A process is forked while its other threads make calls: the child begins a library of its own,
 * and no lock of another thread stands in its way. */
#include "papi.h"
#include "wanted.h"
#include <pthread.h>
#include <stdatomic.h>
#include <sys/wait.h>
#include <unistd.h>

#define THREADS 4
#define FORKS 100

static atomic_int is_over;

static void *work(void *unused) {
    while (!atomic_load(&is_over)) {
        int set = PAPI_NULL, event, number = 0;
        WANT(PAPI_create_eventset(&set), PAPI_OK);
        WANT(PAPI_event_name_to_code("INST_RETIRED", &event), PAPI_OK);
        WANT(PAPI_add_event(set, event), PAPI_OK);
        WANT(PAPI_get_component_info(0) != NULL, 1);
        WANT(PAPI_get_hardware_info() != NULL, 1);
        WANT(PAPI_list_threads(NULL, &number), PAPI_OK);
        WANT(PAPI_lock(PAPI_USR1_LOCK), PAPI_OK);
        WANT(PAPI_unlock(PAPI_USR1_LOCK), PAPI_OK);
        WANT(PAPI_cleanup_eventset(set), PAPI_OK);
        WANT(PAPI_destroy_eventset(&set), PAPI_OK);
    }
    return unused;
}

/* Ends with 0 if all is as wanted, and by a signal if it takes long. */
static void child(void) {
    int set = PAPI_NULL, number = 0;
    long long count;
    alarm(PATIENCE);
    WANT(PAPI_list_threads(NULL, &number), PAPI_OK);
    WANT(number, 1);
    WANT(PAPI_library_init(PAPI_VER_CURRENT), PAPI_VER_CURRENT);
    WANT(PAPI_create_eventset(&set), PAPI_OK);
    WANT(set, 0);
    WANT(PAPI_add_named_event(set, "INST_RETIRED"), PAPI_OK);
    WANT(PAPI_get_component_info(0) != NULL, 1);
    WANT(PAPI_get_hardware_info() != NULL, 1);
    WANT(PAPI_start(set), PAPI_OK);
    WANT(kistalub_go(9, NULL), PAPI_OK);
    WANT(PAPI_stop(set, &count), PAPI_OK);
    WANT(count, 2040);
    PAPI_shutdown();
    exit(0);
}

int main(void) {
    pthread_t threads[THREADS];
    WANT(PAPI_library_init(PAPI_VER_CURRENT), PAPI_VER_CURRENT);
    for (int i = 0; i < THREADS; i++) WANT(pthread_create(&threads[i], NULL, work, NULL), 0);
    for (int i = 0; i < FORKS; i++) {
        int status;
        pid_t forked = fork();
        if (forked == 0) child();
        WANT(waitpid(forked, &status, 0), forked);
        WANT(status, 0);
    }
    atomic_store(&is_over, 1);
    for (int i = 0; i < THREADS; i++) WANT(pthread_join(threads[i], NULL), 0);
    PAPI_shutdown();
    puts("each child begins anew");
    return 0;
}
