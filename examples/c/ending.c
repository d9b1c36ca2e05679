/* The library ends: in a handler, under threads that live on, and in a process that was forked. */
#include "papi.h"
#include "wanted.h"
#include <pthread.h>
#include <sys/wait.h>
#include <unistd.h>

static int told, begin_again;
static pthread_barrier_t barrier;

static int started(void) {
    int set = PAPI_NULL;
    WANT(PAPI_create_eventset(&set), PAPI_OK);
    WANT(PAPI_add_named_event(set, "INST_RETIRED"), PAPI_OK);
    WANT(PAPI_start(set), PAPI_OK);
    return set;
}

static void handler(int set, void *address, long long vector, void *context) {
    (void)set; (void)address; (void)vector; (void)context;
    told++;
    PAPI_shutdown();
    if (begin_again) {
        WANT(PAPI_library_init(PAPI_VER_CURRENT), PAPI_VER_CURRENT);
        WANT(started(), 0);
    }
}

/* The call in which a handler ends the library answers PAPI_ENOINIT, also if the handler begins
 * another one. */
static void in_a_handler(int again) {
    int set = PAPI_NULL, event;
    long long count;
    told = 0;
    begin_again = again;
    WANT(PAPI_library_init(PAPI_VER_CURRENT), PAPI_VER_CURRENT);
    WANT(PAPI_create_eventset(&set), PAPI_OK);
    WANT(PAPI_event_name_to_code("INST_RETIRED", &event), PAPI_OK);
    WANT(PAPI_add_event(set, event), PAPI_OK);
    WANT(PAPI_overflow(set, event, 256, 0, handler), PAPI_OK);
    WANT(PAPI_start(set), PAPI_OK);
    WANT(again ? PAPI_read(set, &count) : kistalub_go(8, NULL), PAPI_ENOINIT);
    WANT(told, 1);
    WANT(PAPI_is_initialized(), again ? PAPI_LOW_LEVEL_INITED : PAPI_NOT_INITED);
    WANT(PAPI_num_events(0), again ? 1 : PAPI_ENOINIT);
    PAPI_shutdown();
}

/* A thread that lives through the end of one library and the begin of another has what it had in
 * neither. */
static void *lives_on(void *unused) {
    long long count;
    int set = started();
    WANT(kistalub_go(3, NULL), PAPI_OK);
    WANT(PAPI_read(set, &count), PAPI_OK);
    WANT(count, 765);
    pthread_barrier_wait(&barrier);
    pthread_barrier_wait(&barrier); /* none is begun */
    WANT(PAPI_read(set, &count), PAPI_ENOINIT);
    WANT(PAPI_create_eventset(&set), PAPI_ENOINIT);
    pthread_barrier_wait(&barrier);
    pthread_barrier_wait(&barrier); /* another one is */
    WANT(PAPI_read(set, &count), PAPI_ENOEVST);
    set = started();
    WANT(kistalub_go(1, NULL), PAPI_OK);
    WANT(PAPI_stop(set, &count), PAPI_OK);
    WANT(count, 255);
    return unused;
}

static void under_a_thread(void) {
    pthread_t thread;
    WANT(PAPI_library_init(PAPI_VER_CURRENT), PAPI_VER_CURRENT);
    WANT(pthread_barrier_init(&barrier, NULL, 2), 0);
    WANT(pthread_create(&thread, NULL, lives_on, NULL), 0);
    pthread_barrier_wait(&barrier);
    PAPI_shutdown();
    pthread_barrier_wait(&barrier);
    pthread_barrier_wait(&barrier);
    WANT(PAPI_library_init(PAPI_VER_CURRENT), PAPI_VER_CURRENT);
    pthread_barrier_wait(&barrier);
    WANT(pthread_join(thread, NULL), 0);
    WANT(pthread_barrier_destroy(&barrier), 0);
    PAPI_shutdown();
}

/* A forked process goes on with a copy, or begins anew. */
static void forked(void) {
    long long count;
    int status;
    WANT(PAPI_library_init(PAPI_VER_CURRENT), PAPI_VER_CURRENT);
    int set = started();
    WANT(kistalub_go(2, NULL), PAPI_OK);
    pid_t child = fork();
    if (child == 0) {
        WANT(kistalub_go(2, NULL), PAPI_OK);
        WANT(PAPI_read(set, &count), PAPI_OK);
        WANT(count, 1020);
        WANT(PAPI_library_init(PAPI_VER_CURRENT), PAPI_VER_CURRENT);
        WANT(PAPI_read(set, &count), PAPI_ENOEVST);
        WANT(started(), 0);
        WANT(kistalub_go(1, NULL), PAPI_OK);
        WANT(PAPI_stop(0, &count), PAPI_OK);
        WANT(count, 255);
        PAPI_shutdown();
        _exit(0);
    }
    WANT(waitpid(child, &status, 0), child);
    WANT(status, 0);
    WANT(PAPI_stop(set, &count), PAPI_OK);
    WANT(count, 510);
    PAPI_shutdown();
}

/* It begins over the files that kistalub_init gave to the first process, or over its own. */
static void forked_over(const char *stream) {
    long long count;
    int status;
    WANT(kistalub_init(getenv("KISTALUB_UNIT"), NULL, NULL, getenv("KISTALUB_STREAM")), PAPI_OK);
    WANT(PAPI_library_init(PAPI_VER_CURRENT), PAPI_VER_CURRENT);
    WANT(kistalub_init(getenv("KISTALUB_UNIT"), NULL, NULL, NULL), PAPI_EINVAL);
    pid_t child = fork();
    if (child == 0) {
        char unit[4096];
        snprintf(unit, sizeof unit, "%s", getenv("KISTALUB_UNIT"));
        unsetenv("KISTALUB_UNIT");
        if (stream) WANT(kistalub_init(unit, NULL, NULL, *stream ? stream : NULL), PAPI_OK);
        WANT(PAPI_library_init(PAPI_VER_CURRENT), PAPI_VER_CURRENT);
        WANT(started(), 0);
        WANT(kistalub_go(1, NULL), PAPI_OK);
        WANT(PAPI_stop(0, &count), PAPI_OK);
        WANT(count, stream ? 0 : 255);
        PAPI_shutdown();
        WANT(PAPI_library_init(PAPI_VER_CURRENT), PAPI_ESYS);
        _exit(0);
    }
    WANT(waitpid(child, &status, 0), child);
    WANT(status, 0);
    PAPI_shutdown();
}

int main(void) {
    WANT(kistalub_init(NULL, NULL, NULL, NULL), PAPI_EINVAL);
    in_a_handler(0);
    setenv("KISTALUB_STEP", "8", 1);
    in_a_handler(1);
    unsetenv("KISTALUB_STEP");
    under_a_thread();
    forked();
    WANT(freopen("/dev/null", "w", stderr) != NULL, 1);
    forked_over(NULL);
    forked_over("");
    puts("each as wanted");
    return 0;
}
