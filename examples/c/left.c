/* A handler of a signal jumps out of the call that it interrupts, again and again: the call is as
 * if it had ended or had not begun. */
#define _DEFAULT_SOURCE
#include "papi.h"
#include "wanted.h"
#include <pthread.h>
#include <setjmp.h>
#include <signal.h>
#include <string.h>
#include <sys/time.h>
#include <sys/wait.h>
#include <time.h>
#include <unistd.h>

#define JUMPS 60
#define CHILDREN 8
#define FEW 4
#define MICROSECONDS 200

static sigjmp_buf before;
static volatile sig_atomic_t is_armed;
static time_t begun;
static int set = PAPI_NULL, told;

static void jump(int number) {
    (void)number;
    if (time(NULL) - begun > PATIENCE) _exit(3); /* a call waits for ever */
    if (!is_armed) return;
    is_armed = 0;
    siglongjmp(before, 1);
}

static int error_handler(int code) {
    told++;
    return code;
}

static void read_and_reset(void) {
    long long count = 0, time;
    WANT(PAPI_read(set, &count), PAPI_OK);
    WANT(PAPI_read_ts(set, &count, &time), PAPI_OK);
    WANT(PAPI_accum(set, &count), PAPI_OK);
    WANT(PAPI_reset(set), PAPI_OK);
    WANT(kistalub_go(1, NULL), PAPI_OK);
}

static void start_and_stop(void) {
    long long count;
    const int code = PAPI_stop(set, &count);
    WANT(code == PAPI_OK || code == PAPI_ENOTRUN, 1);
    WANT(PAPI_start(set), PAPI_OK);
}

static void ask(void) {
    int state, events[2], number = 2;
    PAPI_event_info_t info;
    WANT(PAPI_state(set, &state), PAPI_OK);
    WANT(PAPI_list_events(set, events, &number), PAPI_OK);
    WANT(PAPI_get_event_info(events[0], &info), PAPI_OK);
    WANT(PAPI_list_threads(NULL, &number), PAPI_OK);
}

static void lock_and_unlock(void) {
    WANT(PAPI_lock(PAPI_USR1_LOCK), PAPI_OK);
    WANT(PAPI_unlock(PAPI_USR1_LOCK), PAPI_OK);
}

static void read_region(void) { WANT(PAPI_hl_read("region"), PAPI_OK); }

static void ask_rate(void) {
    float real, own, rate;
    long long count;
    WANT(PAPI_ipc(&real, &own, &count, &rate), PAPI_OK);
    WANT(PAPI_ipc(&real, &own, &count, &rate), PAPI_OK);
    const int code = PAPI_rate_stop();
    WANT(code == PAPI_OK || code == PAPI_ENOEVNT, 1);
}

static void begin_and_stop(void) {
    WANT(PAPI_hl_region_begin("inner"), PAPI_OK);
    WANT(PAPI_hl_region_end("inner"), PAPI_OK);
    WANT(PAPI_hl_stop(), PAPI_OK);
}

/* Signals come, the thread can be cancelled, and the error handler is told of what is refused. */
static void look(void) {
    sigset_t blocked;
    int state;
    told = 0;
    WANT(PAPI_read(set, NULL), PAPI_EINVAL);
    WANT(told, 1);
    WANT(pthread_setcancelstate(PTHREAD_CANCEL_ENABLE, &state), 0);
    WANT(state, PTHREAD_CANCEL_ENABLE);
    WANT(pthread_sigmask(SIG_BLOCK, NULL, &blocked), 0);
    WANT(sigismember(&blocked, SIGALRM) + sigismember(&blocked, SIGUSR1), 0);
}

static void set_timer(int microseconds) {
    const struct itimerval timer = { { 0, microseconds }, { 0, microseconds } };
    WANT(setitimer(ITIMER_REAL, &timer, NULL), 0);
}

static void set_handlers(void) {
    PAPI_option_t debug = { .debug = { .level = PAPI_QUIET, .handler = error_handler } };
    struct sigaction action;
    memset(&action, 0, sizeof action);
    action.sa_handler = jump;
    begun = time(NULL);
    WANT(sigaction(SIGALRM, &action, NULL), 0);
    WANT(PAPI_set_opt(PAPI_DEBUG, &debug), PAPI_OK);
    set_timer(MICROSECONDS);
}

static void leave_often(void (*work)(void), int often) {
    for (volatile int jumps = 0; jumps < often; jumps++) {
        if (!sigsetjmp(before, 1)) {
            is_armed = 1;
            for (;;) work();
        }
        look();
        if (work == lock_and_unlock) WANT(PAPI_unlock(PAPI_USR1_LOCK), PAPI_OK);
        work();
    }
}

static void leave(void (*work)(void)) { leave_often(work, JUMPS); }

/* Each jump may leave a region open, and there is room for few. The program's own set does not
 * count then. */
static void leave_regions(void) {
    for (int i = 0; i < CHILDREN; i++) {
        int status;
        pid_t child = fork();
        if (child == 0) {
            set_handlers();
            WANT(PAPI_library_init(PAPI_VER_CURRENT), PAPI_VER_CURRENT);
            WANT(PAPI_create_eventset(&set), PAPI_OK);
            leave_often(begin_and_stop, FEW);
            set_timer(0);
            PAPI_shutdown();
            exit(0);
        }
        WANT(waitpid(child, &status, 0), child);
        WANT(status, 0);
    }
}

int main(void) {
    setenv("PAPI_EVENTS", "INST_RETIRED", 1);
    setenv("PAPI_OUTPUT_DIRECTORY", "/dev/null", 1); /* nothing is written */
    WANT(freopen("/dev/null", "w", stderr) != NULL, 1);
    leave_regions();
    set_handlers();
    WANT(PAPI_library_init(PAPI_VER_CURRENT), PAPI_VER_CURRENT);
    WANT(PAPI_create_eventset(&set), PAPI_OK);
    WANT(PAPI_add_named_event(set, "INST_RETIRED"), PAPI_OK);
    WANT(PAPI_start(set), PAPI_OK);
    leave(read_and_reset);
    leave(ask);
    leave(lock_and_unlock);
    leave(start_and_stop);
    WANT(PAPI_stop(set, NULL), PAPI_OK);
    WANT(PAPI_hl_region_begin("region"), PAPI_OK);
    leave(read_region);
    leave(ask_rate);
    PAPI_rate_stop();
    WANT(PAPI_hl_region_begin("last"), PAPI_OK);
    set_timer(0);
    WANT(PAPI_hl_region_end("last"), PAPI_OK);
    WANT(PAPI_hl_region_end("region"), PAPI_OK);
    PAPI_shutdown();
    puts("each call has ended or not begun");
    return 0;
}
