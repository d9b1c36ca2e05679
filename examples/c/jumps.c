/* A handler jumps out of the call that it was called in: time goes on after that, and the handler
 * is called again. */
#include "papi.h"
#include "wanted.h"
#include <setjmp.h>

static jmp_buf before;
static int told, jumps;

static void handler(int set, void *address, long long vector, void *context) {
    long long count;
    (void)address; (void)vector; (void)context;
    told++;
    WANT(kistalub_go(1, NULL), PAPI_EISRUN);
    WANT(PAPI_read(set, &count), PAPI_OK);
    if (jumps) longjmp(before, 1);
}

static int jump_handler(int code) {
    told++;
    if (jumps) longjmp(before, code);
    return code;
}

/* Reads from deeper in the stack than the call that was left. */
static long long read_deep(int set, int depth) {
    volatile char room[256];
    long long count = 0;
    room[0] = room[255] = 0;
    if (depth) return read_deep(set, depth - 1) + room[0] + room[255];
    WANT(PAPI_read(set, &count), PAPI_OK);
    return count;
}

static void out_of_a_handler(int depth, int again) {
    int set = PAPI_NULL, event;
    uint32_t went = 0;
    told = 0;
    jumps = 1;
    WANT(PAPI_library_init(PAPI_VER_CURRENT), PAPI_VER_CURRENT);
    WANT(PAPI_create_eventset(&set), PAPI_OK);
    WANT(PAPI_event_name_to_code("INST_RETIRED", &event), PAPI_OK);
    WANT(PAPI_add_event(set, event), PAPI_OK);
    WANT(PAPI_overflow(set, event, 256, 0, handler), PAPI_OK);
    WANT(PAPI_start(set), PAPI_OK);
    if (!setjmp(before)) {
        kistalub_go(8, NULL);
        WANT(0, 1);
    }
    WANT(told, 1);
    jumps = 0;
    WANT(read_deep(set, depth), 510);
    if (again) {
        WANT(kistalub_go(6, &went), PAPI_OK);
        WANT(went, 6);
        WANT(told > 1, 1);
        WANT(read_deep(set, depth), 2040);
        WANT(PAPI_stop(set, NULL), PAPI_OK);
    }
    PAPI_shutdown();
}

static void out_of_an_error_handler(void) {
    PAPI_option_t debug = { .debug = { .level = PAPI_QUIET, .handler = jump_handler } };
    WANT(PAPI_set_opt(PAPI_DEBUG, &debug), PAPI_OK);
    told = 0;
    jumps = 1;
    if (!setjmp(before)) {
        PAPI_read(0, NULL);
        WANT(0, 1);
    }
    WANT(told, 1);
    jumps = 0;
    WANT(PAPI_read(0, NULL), PAPI_EINVAL);
    WANT(told, 2);
}

int main(void) {
    out_of_a_handler(0, 1);
    out_of_a_handler(100, 1);
    out_of_a_handler(0, 0);
    out_of_an_error_handler();
    puts("time goes on");
    return 0;
}
