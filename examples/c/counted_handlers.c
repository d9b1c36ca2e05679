/* Under tools/count: a handler of a signal starts a set in the midst of another call, and the set
 * counts from then on. */
#define _DEFAULT_SOURCE
#include "papi.h"
#include "wanted.h"
#include <signal.h>
#include <string.h>
#include <sys/time.h>

#define ROUNDS 20
#define TURNS 100000

static int set = PAPI_NULL;
static volatile sig_atomic_t handled, is_started;

static void handler(int number) {
    long long count;
    (void)number;
    PAPI_stop(set, &count);
    is_started = PAPI_start(set) == PAPI_OK;
    handled++;
}

static void set_timer(int microseconds) {
    const struct itimerval timer = { { 0, microseconds }, { 0, microseconds } };
    WANT(setitimer(ITIMER_REAL, &timer, NULL), 0);
}

/* Two instructions in each turn at least. */
static void count_in_a_loop(void) {
    long long before, after;
    WANT(PAPI_read(set, &before), PAPI_OK);
    for (volatile int i = 0; i < TURNS; i++) {}
    WANT(PAPI_read(set, &after), PAPI_OK);
    WANT(after - before > 2 * TURNS, 1);
}

int main(void) {
    struct sigaction action;
    long long count;
    memset(&action, 0, sizeof action);
    action.sa_handler = handler;
    WANT(sigaction(SIGALRM, &action, NULL), 0);
    WANT(PAPI_library_init(PAPI_VER_CURRENT), PAPI_VER_CURRENT);
    WANT(PAPI_create_eventset(&set), PAPI_OK);
    WANT(PAPI_add_named_event(set, "PAPI_TOT_INS"), PAPI_OK);
    for (int i = 0; i < ROUNDS; i++) {
        WANT(PAPI_start(set), PAPI_OK);
        WANT(PAPI_stop(set, &count), PAPI_OK);
        handled = 0;
        set_timer(2000 + 37 * i);
        while (!handled) WANT(PAPI_read(set, &count), PAPI_OK);
        set_timer(0);
        if (is_started) count_in_a_loop();
        PAPI_stop(set, &count);
    }
    PAPI_shutdown();
    puts("what is started counts");
    return 0;
}
