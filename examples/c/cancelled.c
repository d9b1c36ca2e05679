/* A thread that is cancelled while it waits for a lock leaves the lock whole, and one that is
 * cancelled while files are read or a line is written leaves the library whole. */
#define _DEFAULT_SOURCE
#include "papi.h"
#include "wanted.h"
#include <fcntl.h>
#include <pthread.h>
#include <sys/stat.h>
#include <time.h>
#include <unistd.h>


static const struct timespec moment = { 0, 50000000 };
static pthread_barrier_t barrier;
static int has_locked;
static char folder[] = "/tmp/kistalub_cancelled_XXXXXX", pipe_path[64];

static void wait_a_moment(void) { WANT(nanosleep(&moment, NULL), 0); }

/* It waits by now, for what the caller then gives. */
static pthread_t cancelled_in(void *(*work)(void *)) {
    pthread_t thread;
    WANT(pthread_create(&thread, NULL, work, NULL), 0);
    pthread_barrier_wait(&barrier);
    wait_a_moment();
    WANT(pthread_cancel(thread), 0);
    wait_a_moment();
    return thread;
}

static void join(pthread_t thread) {
    void *ended;
    WANT(pthread_join(thread, &ended), 0);
    WANT(ended == PTHREAD_CANCELED, 1);
}

static void *wait_for_lock(void *unused) {
    pthread_barrier_wait(&barrier);
    WANT(PAPI_lock(PAPI_USR1_LOCK), PAPI_OK);
    has_locked = 1;
    WANT(PAPI_unlock(PAPI_USR1_LOCK), PAPI_OK);
    pthread_testcancel();
    return unused;
}

static void in_a_lock(void) {
    WANT(PAPI_library_init(PAPI_VER_CURRENT), PAPI_VER_CURRENT);
    WANT(PAPI_lock(PAPI_USR1_LOCK), PAPI_OK);
    pthread_t thread = cancelled_in(wait_for_lock);
    WANT(PAPI_unlock(PAPI_USR1_LOCK), PAPI_OK);
    join(thread);
    WANT(has_locked, 1);
    WANT(PAPI_lock(PAPI_USR1_LOCK), PAPI_OK);
    WANT(PAPI_unlock(PAPI_USR1_LOCK), PAPI_OK);
    PAPI_shutdown();
}

/* The unit file is a pipe that nobody has written yet. */
static void *begin_library(void *unused) {
    pthread_barrier_wait(&barrier);
    WANT(PAPI_library_init(PAPI_VER_CURRENT), PAPI_VER_CURRENT);
    pthread_testcancel();
    return unused;
}

static void *name_files(void *unused) {
    pthread_barrier_wait(&barrier);
    WANT(kistalub_init(pipe_path, NULL, NULL, NULL), PAPI_OK);
    pthread_testcancel();
    return unused;
}

static void give_unit(const char *path) {
    FILE *from = fopen(path, "r"), *to = fopen(pipe_path, "w");
    WANT(from && to, 1);
    for (int c; (c = getc(from)) != EOF;) putc(c, to);
    WANT(fclose(from) + fclose(to), 0);
}

static void in_a_read(const char *unit) {
    setenv("KISTALUB_UNIT", pipe_path, 1);
    pthread_t thread = cancelled_in(begin_library);
    give_unit(unit);
    join(thread);
    WANT(PAPI_library_init(PAPI_VER_CURRENT), PAPI_VER_CURRENT); /* the same library */
    WANT(PAPI_num_components() > 0, 1);
    PAPI_shutdown();
    thread = cancelled_in(name_files);
    give_unit(unit);
    join(thread);
    WANT(PAPI_library_init(PAPI_VER_CURRENT), PAPI_VER_CURRENT);
    PAPI_shutdown();
    setenv("KISTALUB_UNIT", unit, 1);
}

/* A line says that an event is not counted, and standard output takes no more. */
static void *begin_region(void *unused) {
    pthread_barrier_wait(&barrier);
    WANT(PAPI_hl_region_begin("region"), PAPI_OK);
    WANT(PAPI_hl_region_end("region"), PAPI_OK);
    pthread_testcancel();
    return unused;
}

static void fill(int end) {
    static const char some[4096];
    WANT(fcntl(end, F_SETFL, O_NONBLOCK), 0);
    while (write(end, some, sizeof some) > 0) {}
    WANT(fcntl(end, F_SETFL, 0), 0);
}

static void in_a_line(void) {
    char taken[4096];
    int ends[2], shown = dup(1);
    WANT(pipe(ends), 0);
    fill(ends[1]);
    fflush(stdout);
    WANT(dup2(ends[1], 1), 1);
    WANT(PAPI_library_init(PAPI_VER_CURRENT), PAPI_VER_CURRENT);
    pthread_t thread = cancelled_in(begin_region);
    for (int i = 0; i < 4; i++) WANT(read(ends[0], taken, sizeof taken), sizeof taken);
    join(thread);
    WANT(PAPI_hl_region_begin("region"), PAPI_OK);
    WANT(PAPI_hl_region_end("region"), PAPI_OK);
    fflush(stdout);
    WANT(dup2(shown, 1), 1);
    WANT(close(shown) + close(ends[0]) + close(ends[1]), 0);
    PAPI_shutdown();
}

int main(void) {
    char unit[4096];
    snprintf(unit, sizeof unit, "%s", getenv("KISTALUB_UNIT"));
    setvbuf(stdout, NULL, _IONBF, 0);
    setenv("PAPI_EVENTS", "NO_SUCH,INST_RETIRED", 1);
    setenv("PAPI_HL_VERBOSE", "1", 1);
    setenv("PAPI_OUTPUT_DIRECTORY", "/dev/null", 1); /* nothing is written */
    WANT(freopen("/dev/null", "w", stderr) != NULL, 1);
    WANT(pthread_barrier_init(&barrier, NULL, 2), 0);
    WANT(mkdtemp(folder) != NULL, 1);
    snprintf(pipe_path, sizeof pipe_path, "%s/pipe", folder);
    WANT(mkfifo(pipe_path, 0600), 0);
    alarm(PATIENCE);
    in_a_lock();
    in_a_read(unit);
    in_a_line();
    WANT(unlink(pipe_path) + rmdir(folder), 0);
    WANT(pthread_barrier_destroy(&barrier), 0);
    unsetenv("PAPI_HL_VERBOSE");
    puts("the lock is whole, and so is the library");
    return 0;
}
