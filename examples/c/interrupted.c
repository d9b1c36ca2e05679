/* A signal comes again and again, and its handler counts: each call answers as it does elsewhere,
 * also if it interrupts another one. */
#define _DEFAULT_SOURCE
#include "papi.h"
#include "wanted.h"
#include <signal.h>
#include <string.h>
#include <sys/time.h>
#include <sys/wait.h>
#include <unistd.h>

#define CALLS 20000
#define LATE 1200
#define ENOUGH 3
#define MANY 200
#define ROUNDS 3
#define MICROSECONDS 100
#define INSTRUCTIONS 255
#define OCCURRENCES 8

static int set = PAPI_NULL;
static volatile int handled, refused, last, runs_counts;
static long long added;

static void note(int code) {
    if (code != PAPI_OK) {
        refused++;
        last = code;
    }
}

static void handler(int signal) {
    long long count = -1, time = -1;
    (void)signal;
    handled++;
    switch (runs_counts ? handled % 4 : 0) {
    case 0: note(PAPI_read(set, &count)); break;
    case 1: note(PAPI_read_ts(set, &count, &time)); break;
    case 2: note(PAPI_accum(set, &added)); break;
    default: note(PAPI_reset(set));
    }
    if (count % INSTRUCTIONS && count != -1) refused++;
}

/* The program reads, adds up, sets to zero, starts and stops meanwhile. */
static void count_for_long(void) {
    long long count = 0;
    for (int i = 0; i < CALLS; i++) {
        WANT(PAPI_read(set, &count), PAPI_OK);
        WANT(count % INSTRUCTIONS, 0);
        WANT(PAPI_accum(set, &count), PAPI_OK);
        WANT(PAPI_reset(set), PAPI_OK);
        WANT(kistalub_go(1, NULL), PAPI_OK);
        if (i % 100) continue;
        WANT(PAPI_stop(set, &count), PAPI_OK);
        WANT(PAPI_start(set), PAPI_OK);
    }
}

static void tick(int microseconds) {
    const struct itimerval timer = { { 0, microseconds }, { 0, microseconds } };
    WANT(setitimer(ITIMER_REAL, &timer, NULL), 0);
}

/* Other functions are called meanwhile. A handler finds the set that counts as it is. */
static void make_and_ask(void) {
    int other = PAPI_NULL, event, events[2], number = 2, state;
    PAPI_event_info_t info;
    WANT(PAPI_create_eventset(&other), PAPI_OK);
    WANT(PAPI_event_name_to_code("CYCLES", &event), PAPI_OK);
    WANT(PAPI_add_event(other, event), PAPI_OK);
    WANT(PAPI_get_event_info(event, &info), PAPI_OK);
    WANT(PAPI_list_events(other, events, &number), PAPI_OK);
    WANT(number, 1);
    WANT(events[0], event);
    WANT(PAPI_state(other, &state), PAPI_OK);
    WANT(PAPI_cleanup_eventset(other), PAPI_OK);
    WANT(PAPI_destroy_eventset(&other), PAPI_OK);
}

/* What a handler does that is set after many calls, and interrupts one of them. */
typedef enum { READS, ACCUMULATES, STOPS, RESETS } deed;
static deed does;

static void late_handler(int signal) {
    long long count = -1;
    (void)signal;
    switch (does) {
    case READS: note(PAPI_read(set, &count)); break;
    case ACCUMULATES: note(PAPI_accum(set, &added)); break;
    case STOPS:
        if (!handled) note(PAPI_stop(set, &count));
        break;
    default: note(PAPI_reset(set));
    }
    if (count != -1 && count != INSTRUCTIONS * OCCURRENCES) refused++;
    handled++;
}

static void begin(void) {
    set = PAPI_NULL;
    WANT(PAPI_library_init(PAPI_VER_CURRENT), PAPI_VER_CURRENT);
    WANT(PAPI_create_eventset(&set), PAPI_OK);
    WANT(PAPI_add_named_event(set, "INST_RETIRED"), PAPI_OK);
    WANT(PAPI_start(set), PAPI_OK);
}

static void set_handler(void (*function)(int)) {
    struct sigaction action;
    memset(&action, 0, sizeof action);
    action.sa_handler = function;
    WANT(sigaction(SIGALRM, &action, NULL), 0);
}

static void tell_refused(void) {
    tick(0);
    if (refused)
        printf("%d of %d calls in the handler were refused, the last with %d\n", refused, handled,
               last);
    WANT(refused, 0);
    WANT(handled > 0, 1);
}

/* Nothing is lost, and nothing is counted twice. */
static void is_late(deed what, int makes) {
    const long long all = INSTRUCTIONS * OCCURRENCES;
    long long count = 0;
    does = what;
    begin();
    WANT(kistalub_go(OCCURRENCES, NULL), PAPI_OK);
    for (int i = 0; i < LATE; i++) WANT(PAPI_read(set, &count), PAPI_OK);
    set_handler(late_handler);
    tick(MICROSECONDS);
    while (handled < (makes ? MANY : ENOUGH)) {
        if (makes) make_and_ask();
        WANT(PAPI_read(set, &count), PAPI_OK);
        WANT(count == all || (count == 0 && what != READS && what != STOPS), 1);
    }
    tell_refused();
    WANT(PAPI_read(set, &count), PAPI_OK);
    WANT(count, what == READS || what == STOPS ? all : 0);
    WANT(added, what == ACCUMULATES ? all : 0);
    WANT(PAPI_stop(set, &count), what == STOPS ? PAPI_ENOTRUN : PAPI_OK);
    PAPI_shutdown();
}

/* Each in a process of its own, in which no handler was seen before. */
static void are_late(void) {
    for (int round = 0; round < ROUNDS; round++)
        for (int what = READS; what <= RESETS; what++) {
            int status;
            pid_t child = fork();
            if (child == 0) {
                is_late((deed)what, round == 0);
                _exit(0);
            }
            WANT(waitpid(child, &status, 0), child);
            WANT(status, 0);
        }
}

int main(void) {
    are_late();
    begin();
    set_handler(handler);
    tick(MICROSECONDS);
    count_for_long();
    for (int i = 0; i < CALLS / 10; i++) make_and_ask();
    runs_counts = 1;
    count_for_long();
    tell_refused();
    PAPI_shutdown();
    puts("each call answers");
    return 0;
}
