/* A process is forked while a thread waits for a lock of the program: in the child nobody waits for
 * it. */
#define _DEFAULT_SOURCE
#include "papi.h"
#include "wanted.h"
#include <pthread.h>
#include <sys/wait.h>
#include <time.h>
#include <unistd.h>

#define ROUNDS 20

static pthread_barrier_t barrier;
static const struct timespec moment = { 0, 5000000 };

static void *wait_for_lock(void *unused) {
    pthread_barrier_wait(&barrier);
    WANT(PAPI_lock(PAPI_USR1_LOCK), PAPI_OK);
    WANT(PAPI_unlock(PAPI_USR1_LOCK), PAPI_OK);
    return unused;
}

/* Holds the lock while another thread begins to wait for it, and then lets it go. */
static void hold_and_let_go(pthread_t *thread) {
    WANT(pthread_create(thread, NULL, wait_for_lock, NULL), 0);
    pthread_barrier_wait(&barrier);
    WANT(nanosleep(&moment, NULL), 0);
}

static void child(void) {
    pthread_t thread;
    alarm(PATIENCE);
    for (int i = 0; i < ROUNDS; i++) {
        hold_and_let_go(&thread);
        WANT(PAPI_unlock(PAPI_USR1_LOCK), PAPI_OK);
        WANT(pthread_join(thread, NULL), 0);
        WANT(PAPI_lock(PAPI_USR1_LOCK), PAPI_OK);
    }
    _exit(0);
}

int main(void) {
    pthread_t thread;
    int status;
    WANT(PAPI_library_init(PAPI_VER_CURRENT), PAPI_VER_CURRENT);
    WANT(pthread_barrier_init(&barrier, NULL, 2), 0);
    WANT(PAPI_lock(PAPI_USR1_LOCK), PAPI_OK);
    hold_and_let_go(&thread);
    pid_t forked = fork();
    if (forked == 0) child();
    WANT(waitpid(forked, &status, 0), forked);
    WANT(status, 0);
    WANT(PAPI_unlock(PAPI_USR1_LOCK), PAPI_OK);
    WANT(PAPI_unlock(PAPI_USR1_LOCK), PAPI_OK); /* twice is once */
    WANT(pthread_join(thread, NULL), 0);
    WANT(PAPI_lock(PAPI_USR1_LOCK), PAPI_OK);
    hold_and_let_go(&thread);
    WANT(PAPI_unlock(PAPI_USR1_LOCK), PAPI_OK);
    WANT(pthread_join(thread, NULL), 0);
    PAPI_shutdown();
    puts("each has the lock in turn");
    return 0;
}
