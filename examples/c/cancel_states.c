/* A function of the program that is called in a call finds cancellation as the program has it, and
 * so does the program if the function jumps out. */
#define _DEFAULT_SOURCE
#include "papi.h"
#include "wanted.h"
#include <pthread.h>
#include <setjmp.h>
#include <unistd.h>

static jmp_buf before;
static int jumps, told;

static int state(void) {
    int is = -1;
    WANT(pthread_setcancelstate(PTHREAD_CANCEL_ENABLE, &is), 0);
    return is;
}

static int error_handler(int code) {
    told++;
    WANT(state(), PTHREAD_CANCEL_ENABLE);
    if (jumps) longjmp(before, 1);
    return code;
}

static unsigned long id(void) {
    WANT(state(), PTHREAD_CANCEL_ENABLE);
    if (jumps) longjmp(before, 1);
    return 7;
}

static void refuse_region(void) { PAPI_hl_read(NULL); }
static void refuse_lock(void) { PAPI_lock(-1); }
static void refuse_library(void) { PAPI_library_init(-1); }
static void refuse_event(void) { PAPI_add_event(-1, 0); }

static void in_errors(void) {
    void (*const works[])(void) = { refuse_region, refuse_lock, refuse_library, refuse_event };
    for (volatile size_t i = 0; i < sizeof works / sizeof *works; i++)
        for (jumps = 0; jumps < 2; jumps++) {
            told = 0;
            if (!setjmp(before)) works[i]();
            WANT(told, 1);
            WANT(state(), PTHREAD_CANCEL_ENABLE);
        }
}

/* The function that gives the id of a thread, at the first call of the thread. */
static void *begin(void *unused) {
    if (!setjmp(before)) PAPI_get_real_cyc();
    WANT(state(), PTHREAD_CANCEL_ENABLE);
    return unused;
}

static void in_ids(void) {
    pthread_t thread;
    jumps = 0;
    WANT(PAPI_thread_init(id), PAPI_OK);
    for (jumps = 0; jumps < 2; jumps++) {
        WANT(pthread_create(&thread, NULL, begin, NULL), 0);
        WANT(pthread_join(thread, NULL), 0);
    }
}

int main(void) {
    PAPI_option_t debug = { .debug = { .level = PAPI_QUIET, .handler = error_handler } };
    WANT(PAPI_library_init(PAPI_VER_CURRENT), PAPI_VER_CURRENT);
    WANT(PAPI_set_opt(PAPI_DEBUG, &debug), PAPI_OK);
    in_errors();
    in_ids();
    PAPI_shutdown();
    puts("each finds it as it was");
    return 0;
}
