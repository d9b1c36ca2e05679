/* The process ends while its threads begin and end the library. */
#define _DEFAULT_SOURCE
#include "papi.h"
#include "wanted.h"
#include <pthread.h>
#include <stdatomic.h>
#include <sys/wait.h>
#include <unistd.h>
#define THREADS 3
#define ENDS 20
static atomic_int begun;
static void *work(void *unused) {
    for (;;) {
        int set = PAPI_NULL;
        PAPI_library_init(PAPI_VER_CURRENT);
        PAPI_create_eventset(&set);
        PAPI_add_named_event(set, "INST_RETIRED");
        PAPI_start(set);
        PAPI_get_component_info(0);
        atomic_fetch_add(&begun, 1);
        PAPI_shutdown();
    }
    return unused;
}
static void end(void) {
    pthread_t thread;
    alarm(PATIENCE);
    for (int i = 0; i < THREADS; i++) WANT(pthread_create(&thread, NULL, work, NULL), 0);
    while (atomic_load(&begun) < 4 * THREADS) usleep(100);
    exit(0);
}
int main(void) {
    for (int i = 0; i < ENDS; i++) {
        int status;
        pid_t child = fork();
        if (child == 0) end();
        WANT(waitpid(child, &status, 0), child);
        WANT(status, 0);
    }
    puts("each process ends");
    return 0;
}
