/* A signal comes while threads make their first calls, and its handler makes calls too: each thread
 * begins once. */
#define _DEFAULT_SOURCE
#include "papi.h"
#include "wanted.h"
#include <pthread.h>
#include <signal.h>
#include <string.h>
#include <sys/time.h>
#include <time.h>
#include <unistd.h>

#define THREADS 100
#define MICROSECONDS 50

static time_t begun;
static volatile sig_atomic_t handled;
static _Thread_local volatile sig_atomic_t is_beginning;

static void set_timer(int microseconds) {
    const struct itimerval timer = { { 0, 0 }, { 0, microseconds } };
    WANT(setitimer(ITIMER_REAL, &timer, NULL), 0);
}

static void ask(int number) {
    (void)number;
    if (time(NULL) - begun > PATIENCE) _exit(3); /* a call waits for ever */
    if (is_beginning) {
        handled++;
        PAPI_get_real_cyc();
        kistalub_go(1, NULL);
    }
    set_timer(MICROSECONDS);
}

static void *begin(void *unused) {
    int set = PAPI_NULL;
    is_beginning = 1;
    PAPI_get_real_cyc();
    WANT(PAPI_create_eventset(&set), PAPI_OK);
    WANT(PAPI_destroy_eventset(&set), PAPI_OK);
    is_beginning = 0;
    return unused;
}

int main(void) {
    struct sigaction action, none;
    int number = 0;
    memset(&action, 0, sizeof action);
    memset(&none, 0, sizeof none);
    none.sa_handler = SIG_IGN;
    action.sa_handler = ask;
    begun = time(NULL);
    WANT(sigaction(SIGALRM, &action, NULL), 0);
    WANT(PAPI_library_init(PAPI_VER_CURRENT), PAPI_VER_CURRENT);
    set_timer(MICROSECONDS);
    for (int i = 0; i < THREADS; i++) {
        pthread_t thread;
        sigset_t all, before;
        WANT(sigfillset(&all), 0);
        WANT(pthread_create(&thread, NULL, begin, NULL), 0);
        WANT(pthread_sigmask(SIG_BLOCK, &all, &before), 0); /* the thread has them all */
        WANT(pthread_join(thread, NULL), 0);
        WANT(pthread_sigmask(SIG_SETMASK, &before, NULL), 0);
    }
    WANT(sigaction(SIGALRM, &none, NULL), 0);
    WANT(PAPI_list_threads(NULL, &number), PAPI_OK);
    WANT(number, THREADS + 1);
    WANT(handled > 0, 1);
    PAPI_shutdown();
    puts("each thread begins once");
    return 0;
}
