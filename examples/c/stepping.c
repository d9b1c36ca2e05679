/* With KISTALUB_STEP a handler that reads does not go on: time stands in it. A stream that has
 * grown since has its new lines for the threads that come. */
#include "papi.h"
#include "wanted.h"
#include <pthread.h>
#include <unistd.h>

#define LINES 200000

static long calls;
static long long last;

static void handler(int set, void *address, long long vector, void *context) {
    long long count;
    uint32_t went = 7;
    (void)address; (void)vector; (void)context;
    WANT(PAPI_read(set, &count), PAPI_OK);
    WANT(count > last, 1);
    WANT(kistalub_go(1, &went), PAPI_EISRUN);
    WANT(went, 0);
    last = count;
    calls++;
}

/* A stream of occurrences that each retire 255 instructions, or more of them behind those that are
 * there. */
static void write_stream(const char *path, const char *how, int lines) {
    FILE *f = fopen(path, how);
    WANT(f != NULL, 1);
    for (int i = 0; i < lines; i++) fputs("0 c0 00 u 255 400000\n", f);
    WANT(fclose(f), 0);
}

static void *go_twice(void *went) {
    WANT(kistalub_go(2, went), PAPI_OK);
    return NULL;
}

/* A thread has the stream as it is at the thread's first call. */
static void grows(const char *path) {
    pthread_t thread;
    uint32_t went = 0;
    write_stream(path, "w", 1);
    unsetenv("KISTALUB_STEP");
    WANT(PAPI_library_init(PAPI_VER_CURRENT), PAPI_VER_CURRENT);
    go_twice(&went);
    WANT(went, 1);
    write_stream(path, "a", 1);
    WANT(pthread_create(&thread, NULL, go_twice, &went), 0);
    WANT(pthread_join(thread, NULL), 0);
    WANT(went, 2);
    PAPI_shutdown();
}

int main(void) {
    char path[] = "/tmp/kistalub_stepping_XXXXXX";
    int set = PAPI_NULL, event;
    long long count;
    WANT(close(mkstemp(path)), 0);
    write_stream(path, "w", LINES);
    setenv("KISTALUB_STREAM", path, 1);
    setenv("KISTALUB_STEP", "200000", 1);
    WANT(PAPI_library_init(PAPI_VER_CURRENT), PAPI_VER_CURRENT);
    WANT(PAPI_create_eventset(&set), PAPI_OK);
    WANT(PAPI_add_named_event(set, "INST_RETIRED"), PAPI_OK);
    WANT(PAPI_event_name_to_code("INST_RETIRED", &event), PAPI_OK);
    WANT(PAPI_overflow(set, event, 256, 0, handler), PAPI_OK);
    WANT(PAPI_start(set), PAPI_OK);
    WANT(PAPI_stop(set, &count), PAPI_OK);
    printf("%ld calls of the handler, %lld instructions\n", calls, count);
    PAPI_shutdown();
    grows(path);
    unlink(path);
    return 0;
}
