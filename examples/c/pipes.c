/* Each thread has a pipe for a stream: it is read once, when the thread begins. */
#define _DEFAULT_SOURCE
#include "papi.h"
#include "wanted.h"
#include <fcntl.h>
#include <pthread.h>
#include <string.h>
#include <sys/stat.h>
#include <unistd.h>

#define LINES 3

static char folder[] = "/tmp/kistalub_pipes_XXXXXX", path[64];

/* The first who opens the pipe has the lines, and others would have none. */
static void *give(void *unused) {
    for (int i = 0; i < LINES + 1; i++) {
        const int to = open(path, O_WRONLY);
        WANT(to >= 0, 1);
        for (int line = 0; i == 0 && line < LINES; line++)
            WANT(write(to, "0 c0 00 u 200 1\n", 16), 16);
        WANT(close(to), 0);
        usleep(1000); /* who has read to the end closes it meanwhile */
    }
    return unused;
}

int main(void) {
    char streams[64];
    pthread_t giver;
    int set = PAPI_NULL;
    long long count;
    WANT(mkdtemp(folder) != NULL, 1);
    snprintf(path, sizeof path, "%s/0", folder);
    snprintf(streams, sizeof streams, "%s/%%t", folder);
    WANT(mkfifo(path, 0600), 0);
    setenv("KISTALUB_STREAM", streams, 1);
    alarm(PATIENCE);
    WANT(pthread_create(&giver, NULL, give, NULL), 0);
    WANT(PAPI_library_init(PAPI_VER_CURRENT), PAPI_VER_CURRENT);
    WANT(PAPI_create_eventset(&set), PAPI_OK);
    WANT(PAPI_add_named_event(set, "INST_RETIRED"), PAPI_OK);
    WANT(PAPI_start(set), PAPI_OK);
    WANT(kistalub_go(LINES, NULL), PAPI_OK);
    WANT(PAPI_stop(set, &count), PAPI_OK);
    WANT(count, 200 * LINES);
    PAPI_shutdown();
    WANT(pthread_cancel(giver), 0);
    WANT(pthread_join(giver, NULL), 0);
    WANT(unlink(path) + rmdir(folder), 0);
    puts("a pipe is read once");
    return 0;
}
