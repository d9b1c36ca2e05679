/* The process ends while its threads are in regions. */
#include "papi.h"
#include "wanted.h"
#include <pthread.h>
#include <stdatomic.h>
#include <sys/wait.h>
#include <unistd.h>

#define THREADS 4
#define ENDS 20

static atomic_int begun;

static void *work(void *unused) {
    while (PAPI_hl_region_begin("region") == PAPI_OK && PAPI_hl_region_end("region") == PAPI_OK)
        atomic_fetch_add(&begun, 1);
    for (;;) PAPI_hl_read("region");
    return unused;
}

static void end(void) {
    pthread_t thread;
    alarm(PATIENCE);
    WANT(PAPI_hl_region_begin("first"), PAPI_OK);
    WANT(PAPI_hl_region_end("first"), PAPI_OK);
    for (int i = 0; i < THREADS; i++) WANT(pthread_create(&thread, NULL, work, NULL), 0);
    while (atomic_load(&begun) < 10 * THREADS) {}
    exit(0);
}

int main(void) {
    setenv("PAPI_OUTPUT_DIRECTORY", "/dev/null", 1); /* nothing is written */
    WANT(freopen("/dev/null", "w", stderr) != NULL, 1);
    for (int i = 0; i < ENDS; i++) {
        int status;
        pid_t child = fork();
        if (child == 0) end();
        WANT(waitpid(child, &status, 0), child);
        WANT(status, 0);
    }
    puts("each process ends");
    return 0;
}
