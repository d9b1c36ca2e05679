/* The program's error handler is called once for a call, and under no lock; so is the function that
 * gives the ids of threads. */
#include "papi.h"
#include "wanted.h"
#include <pthread.h>
#include <unistd.h>


static _Thread_local int told;
static int asks_elsewhere;

/* Begins a region in another thread: it would wait for ever for a lock that this call holds. */
static void *begin_region(void *unused) {
    PAPI_hl_region_begin("elsewhere");
    PAPI_hl_region_end("elsewhere");
    return unused;
}

static void ask_elsewhere(void) {
    pthread_t thread;
    if (!asks_elsewhere) return;
    asks_elsewhere = 0;
    WANT(pthread_create(&thread, NULL, begin_region, NULL), 0);
    WANT(pthread_join(thread, NULL), 0);
}

static int handler(int code) {
    told++;
    ask_elsewhere();
    return code;
}

static unsigned long id(void) {
    ask_elsewhere();
    return (unsigned long)pthread_self();
}

static void set_handler(void) {
    PAPI_option_t debug = { .debug = { .level = PAPI_QUIET, .handler = handler } };
    WANT(PAPI_set_opt(PAPI_DEBUG, &debug), PAPI_OK);
    told = 0;
}

/* Functions that call others of the library. */
static void in_inner_functions(void) {
    int unknown[1] = { PAPI_NATIVE_MASK + 99 }, set = PAPI_NULL;
    WANT(PAPI_create_eventset(&set), PAPI_OK);
    WANT(PAPI_add_events(set, unknown, 1), PAPI_ENOEVNT);
    WANT(told, 1);
    WANT(PAPI_set_domain(99), PAPI_EINVAL);
    WANT(told, 2);
    WANT(PAPI_set_multiplex(set + 1), PAPI_ENOEVST);
    WANT(told, 3);
    WANT(PAPI_destroy_eventset(&set), PAPI_OK);
}

/* The events of no unit: its first thread alone has a stream. */
static void *without_stream(void *unused) {
    char name[PAPI_MAX_STR_LEN];
    told = 0;
    WANT(PAPI_event_code_to_name(PAPI_NATIVE_MASK, name), PAPI_ESYS);
    WANT(told, 1);
    asks_elsewhere = 1;
    WANT(PAPI_hl_region_begin("region"), PAPI_ESYS);
    WANT(told, 2);
    return unused;
}

static void *with_id(void *unused) {
    asks_elsewhere = 1;
    WANT(PAPI_hl_region_begin("region"), PAPI_OK);
    WANT(PAPI_hl_region_end("region"), PAPI_OK);
    return unused;
}

static void run(void *(*work)(void *)) {
    pthread_t thread;
    WANT(pthread_create(&thread, NULL, work, NULL), 0);
    WANT(pthread_join(thread, NULL), 0);
}

int main(void) {
    alarm(PATIENCE);
    setenv("PAPI_EVENTS", "INST_RETIRED", 1);
    setenv("PAPI_OUTPUT_DIRECTORY", "/dev/null", 1); /* nothing is written */
    WANT(freopen("/dev/null", "w", stderr) != NULL, 1);
    WANT(PAPI_library_init(PAPI_VER_CURRENT), PAPI_VER_CURRENT);
    WANT(PAPI_thread_init(id), PAPI_OK);
    run(with_id);
    set_handler();
    WANT(PAPI_read(0, NULL), PAPI_EINVAL);
    WANT(told, 1);
    told = 0;
    in_inner_functions();
    WANT(setenv("KISTALUB_STREAM", "", 1), 0);
    PAPI_shutdown();
    char streams[] = "/tmp/kistalub_handlers_XXXXXX", paths[64], first[64], folder[64];
    WANT(mkdtemp(streams) != NULL, 1);
    snprintf(paths, sizeof paths, "%s/%%t", streams);
    snprintf(first, sizeof first, "%s/0", streams);
    snprintf(folder, sizeof folder, "%s/1", streams);
    WANT(fclose(fopen(first, "w")), 0);
    WANT(symlink(folder, folder), 0); /* no file that can be read */
    setenv("KISTALUB_STREAM", paths, 1);
    WANT(PAPI_library_init(PAPI_VER_CURRENT), PAPI_VER_CURRENT);
    run(without_stream);
    PAPI_shutdown();
    WANT(unlink(first) + unlink(folder) + rmdir(streams), 0);
    puts("each is called once, and under no lock");
    return 0;
}
