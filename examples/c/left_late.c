/* The first handler of a process is set after many calls, and jumps out of the call that it
 * interrupts. A reading leaves all as it was. A change in the midst of which it comes takes the
 * thread's counters: its calls answer PAPI_ECLOST until a library is begun anew, and none gives a
 * wrong count. */
#define _DEFAULT_SOURCE
#include "papi.h"
#include "wanted.h"
#include <setjmp.h>
#include <signal.h>
#include <string.h>
#include <sys/time.h>
#include <sys/wait.h>
#include <unistd.h>

#define LATE 1200
#define TRIES 60
#define LINES 6000
#define LOST 2
#define OCCURRENCES 8
#define INSTRUCTIONS 3

static char stream[] = "/tmp/kistalub_left_XXXXXX";
static sigjmp_buf before;
static int set;

static void jump(int number) {
    (void)number;
    siglongjmp(before, 1);
}

static void set_handler(int microseconds) {
    const struct itimerval timer = { { 0, 0 }, { 0, microseconds } };
    struct sigaction action;
    memset(&action, 0, sizeof action);
    action.sa_handler = jump;
    WANT(sigaction(SIGALRM, &action, NULL), 0);
    WANT(setitimer(ITIMER_REAL, &timer, NULL), 0);
}

static void begin(void) {
    set = PAPI_NULL;
    WANT(PAPI_library_init(PAPI_VER_CURRENT), PAPI_VER_CURRENT);
    WANT(PAPI_create_eventset(&set), PAPI_OK);
    WANT(PAPI_add_named_event(set, "INST_RETIRED"), PAPI_OK);
    WANT(PAPI_start(set), PAPI_OK);
}

/* What is left counts from its beginning to the end of the stream. */
static void count_all(void) {
    long long count;
    WANT(kistalub_go(LINES, NULL), PAPI_OK);
    WANT(PAPI_read(set, &count), PAPI_OK);
    WANT(count, INSTRUCTIONS * LINES);
    WANT(PAPI_stop(set, &count), PAPI_OK);
    WANT(PAPI_start(set), PAPI_OK);
}

static int left_in(int microseconds, int changes) {
    long long count = 0;
    begin();
    WANT(kistalub_go(OCCURRENCES, NULL), PAPI_OK);
    for (int i = 0; i < LATE; i++) WANT(PAPI_read(set, &count), PAPI_OK);
    if (!sigsetjmp(before, 1)) {
        set_handler(microseconds);
        for (;;)
            if (changes) kistalub_go(1, NULL);
            else PAPI_read(set, &count);
    }
    const int code = PAPI_read(set, &count);
    WANT(code == PAPI_OK || (changes && code == PAPI_ECLOST), 1);
    if (code == PAPI_OK) {
        WANT(changes || count == INSTRUCTIONS * OCCURRENCES, 1);
        count_all();
    } else {
        WANT(PAPI_stop(set, &count), PAPI_ECLOST);
        WANT(PAPI_create_eventset(&set), PAPI_ECLOST);
    }
    PAPI_shutdown();
    begin();
    count_all();
    PAPI_shutdown();
    return code == PAPI_OK ? 0 : LOST;
}

int main(void) {
    FILE *f = fdopen(mkstemp(stream), "w");
    WANT(f != NULL, 1);
    for (int i = 0; i < LINES; i++) fprintf(f, "0 c0 00 u %d 1\n", INSTRUCTIONS);
    WANT(fclose(f), 0);
    setenv("KISTALUB_STREAM", stream, 1);
    for (int i = 0; i < 2 * TRIES; i++) {
        int status;
        pid_t child = fork();
        if (child == 0) {
            if (left_in(1 + i, i % 2) == 0) exit(0);
            _exit(LOST); /* what a lost thread has is left */
        }
        WANT(waitpid(child, &status, 0), child);
        WANT(WIFEXITED(status) &&
                 (WEXITSTATUS(status) == 0 || (i % 2 && WEXITSTATUS(status) == LOST)),
             1);
    }
    unlink(stream);
    puts("none counts wrong");
    return 0;
}
