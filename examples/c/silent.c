/* A native event that no line of the stream counts for is told once, when a set with it is started;
 * a preset's natives are too. Each allocation of such a life is refused in turn: the call answers
 * PAPI_ENOMEM, and nothing is left. With KISTALUB_HINTS=0 nothing is told. */
#define _DEFAULT_SOURCE
#include "kistalub.h"
#include "papi.h"
#include "refusing.h"
#include "wanted.h"
#include <fcntl.h>
#include <stdlib.h>
#include <unistd.h>

/* Makes a call, and once more if an allocation was refused in it. */
#define MADE(call, wanted) do { \
    long before_ = refusals, answer_ = (call); \
    if (refusals != before_) { WANT(answer_, PAPI_ENOMEM); answer_ = (call); } \
    WANT(answer_, wanted); \
} while (0)

static void count(const char *name, long long wanted) {
    int set = PAPI_NULL;
    long long value = -1;
    uint32_t went = 0;
    MADE(PAPI_create_eventset(&set), PAPI_OK);
    MADE(PAPI_add_named_event(set, name), PAPI_OK);
    MADE(PAPI_start(set), PAPI_OK);
    MADE(kistalub_go(1, &went), PAPI_OK);
    MADE(PAPI_stop(set, &value), PAPI_OK);
    WANT(value, wanted);
    MADE(PAPI_cleanup_eventset(set), PAPI_OK);
    MADE(PAPI_destroy_eventset(&set), PAPI_OK);
}

static void life(void) {
    MADE(PAPI_library_init(PAPI_VER_CURRENT), PAPI_VER_CURRENT);
    count("INST_RETIRED", 7);
    count("BR_INST:TAKEN", 0);
    count("BR_INST:TAKEN", 0);
    count("PAPI_LST_INS", 7);
    count("CYCLES:k", 0);
    count("MEM:LOADS:k", 0);
    PAPI_shutdown();
}

/* Lives with each allocation refused in turn, until one has none that is. */
static int each_refused(void) {
    long k = 0, before;
    do {
        before = refusals;
        left = k++;
        life();
        left = -1;
        if (live) { printf("after allocation %ld was refused, %ld are left\n", k, live); return 0; }
    } while (refusals != before);
    return refusals == k - 1 && refusals > 0;
}

/* A stream whose last line alone counts for an event, of which nothing is told, or does not count
 * for it either. */
static void with_stream(int others, const char *last, const char *name) {
    char path[] = "/tmp/kistalub_heads_XXXXXX";
    FILE *f = fdopen(mkstemp(path), "w");
    WANT(f != NULL, 1);
    for (int head = 0; head < others; head++)
        fprintf(f, "0 %02x %02x u 1 1\n", 0x10 + head / 256, head % 256);
    fputs(last, f);
    WANT(fclose(f), 0);
    setenv("KISTALUB_STREAM", path, 1);
    MADE(PAPI_library_init(PAPI_VER_CURRENT), PAPI_VER_CURRENT);
    count(name, 0);
    PAPI_shutdown();
    unlink(path);
}

int main(void) {
    int errors = dup(2), nothing = open("/dev/null", O_WRONLY);
    dup2(nothing, 2);
    int all = each_refused();
    dup2(errors, 2);
    printf("each allocation refused once, and nothing is left: %s\n", all ? "yes" : "no");
    fflush(stdout);
    life();
    setenv("KISTALUB_HINTS", "0", 1);
    life();
    setenv("KISTALUB_HINTS", "1", 1);
    with_stream(1, "0 00 00 u 1 1\n", "REF");
    with_stream(4096, "0 c0 00 u 1 1\n", "INST_RETIRED"); /* one head more than are asked */
    with_stream(4095, "0 00 00 u 1 1\n", "INST_RETIRED"); /* as many as are */
    return !all;
}
