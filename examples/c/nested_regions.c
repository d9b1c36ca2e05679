/* A handler that is called while a region begins, is read or ends begins and ends regions itself,
 * or jumps out. */
#define _DEFAULT_SOURCE
#include "papi.h"
#include "wanted.h"
#include <pthread.h>
#include <setjmp.h>
#include <string.h>
#include <sys/wait.h>
#include <unistd.h>

#define LINES 4000
#define MOST_NESTED 10

static char stream[] = "/tmp/kistalub_nested_XXXXXX";
static void (*deed)(void);
static int code;
static sigjmp_buf before;

static void jump_out(void) { siglongjmp(before, 1); }

static void end_region(void) { code = PAPI_hl_region_end("region"); }

static void begin_region(void) { code = PAPI_hl_region_begin("inner"); }

/* Once. */
static void handler(int set, void *address, long long vector, void *context) {
    void (*now)(void) = deed;
    (void)set; (void)address; (void)vector; (void)context;
    deed = NULL;
    if (now) now();
}

static void write_stream(void) {
    FILE *f = fdopen(mkstemp(stream), "w");
    WANT(f != NULL, 1);
    for (int i = 0; i < LINES; i++) fputs("1 10 00 u 200 1\n0 c0 00 u 1 1\n", f);
    WANT(fclose(f), 0);
}

/* Packets pass a threshold at each reading. */
static void count_packets(void) {
    int set = PAPI_NULL, event;
    WANT(PAPI_create_eventset(&set), PAPI_OK);
    WANT(PAPI_event_name_to_code("PACKETS", &event), PAPI_OK);
    WANT(PAPI_add_event(set, event), PAPI_OK);
    WANT(PAPI_overflow(set, event, 256, 0, handler), PAPI_OK);
    WANT(PAPI_start(set), PAPI_OK);
}

static void in_another(void (*what)(void), int depth) {
    deed = NULL;
    for (int i = 0; i < depth; i++) WANT(PAPI_hl_region_begin("region"), PAPI_OK);
    code = 1;
    deed = what;
}

/* The handler ends the region that is just being ended: the regions do not match, and the high
 * level has failed. */
static void end_twice(void) {
    in_another(end_region, 1);
    WANT(PAPI_hl_region_end("region"), PAPI_EINVAL);
    WANT(code, PAPI_OK);
    WANT(PAPI_hl_region_begin("region"), PAPI_EMISC);
    PAPI_shutdown();
    exit(0);
}

/* What is jumped out of has not ended, and the thread can be cancelled. */
static void jump_out_of(int (*call)(const char *), const char *name) {
    int state = -1;
    in_another(jump_out, 0);
    if (!sigsetjmp(before, 1)) {
        call(name);
        WANT(0, 1);
    }
    WANT(pthread_setcancelstate(PTHREAD_CANCEL_ENABLE, &state), 0);
    WANT(state, PTHREAD_CANCEL_ENABLE);
}

static void jump_out_of_each(void) {
    in_another(NULL, 1);
    jump_out_of(PAPI_hl_region_begin, "inner");
    jump_out_of(PAPI_hl_read, "region");
    jump_out_of(PAPI_hl_region_end, "region");
    WANT(PAPI_hl_region_end("region"), PAPI_OK);
}

int main(void) {
    int status;
    pid_t child;
    write_stream();
    setenv("KISTALUB_STREAM", stream, 1);
    setenv("KISTALUB_STEP", "4", 1);
    setenv("PAPI_EVENTS", "INST_RETIRED", 1);
    setenv("PAPI_OUTPUT_DIRECTORY", "/dev/null", 1); /* nothing is written */
    WANT(freopen("/dev/null", "w", stderr) != NULL, 1);
    WANT(PAPI_library_init(PAPI_VER_CURRENT), PAPI_VER_CURRENT);
    count_packets();
    jump_out_of_each();
    if ((child = fork()) == 0) end_twice();
    WANT(waitpid(child, &status, 0), child);
    WANT(status, 0);
    in_another(end_region, 1);
    WANT(PAPI_hl_read("region"), PAPI_OK); /* which is no more there when it was read */
    WANT(code, PAPI_OK);
    in_another(begin_region, MOST_NESTED - 1);
    WANT(PAPI_hl_region_begin("outer"), PAPI_ENOMEM); /* the handler had the last place */
    WANT(code, PAPI_OK);
    WANT(PAPI_hl_region_begin("region"), PAPI_EMISC);
    WANT(PAPI_hl_stop(), PAPI_ENOEVNT);
    PAPI_shutdown();
    unlink(stream);
    puts("each region has its place");
    return 0;
}
