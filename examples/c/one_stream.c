/* A thousand threads come and go over one stream. Each has a copy of it while it counts, opening
 * takes no more than that, and nothing stays when a thread has ended. */
#define _DEFAULT_SOURCE
#include "papi.h"
#include "wanted.h"
#include <malloc.h>
#include <pthread.h>
#include <string.h>
#include <sys/resource.h>
#include <unistd.h>

#define THREADS 1000
#define LINES 200000
#define LINE "0 c0 00 u 255 400000\n"
#define SIZE (LINES * (sizeof LINE - 1))
#define STACK ((size_t)512 << 10)
#define LARGE (1 << 20) /* what is larger goes back to the system when it is freed */
#define OCCURRENCES 3

static char stream[] = "/tmp/kistalub_one_XXXXXX";

static void write_stream(void) {
    FILE *f = fdopen(mkstemp(stream), "w");
    WANT(f != NULL, 1);
    for (int i = 0; i < LINES; i++) fputs(LINE, f);
    WANT(fclose(f), 0);
}

/* How many bytes the process may write to. */
static size_t data_bytes(void) {
    char line[256];
    size_t kib = 0;
    FILE *f = fopen("/proc/self/status", "r");
    WANT(f != NULL, 1);
    while (fgets(line, sizeof line, f))
        if (!strncmp(line, "VmData:", 7)) kib = strtoul(line + 7, NULL, 10);
    fclose(f);
    return kib << 10;
}

static void *count(void *unused) {
    int set = PAPI_NULL;
    long long value;
    WANT(PAPI_create_eventset(&set), PAPI_OK);
    WANT(PAPI_add_named_event(set, "INST_RETIRED"), PAPI_OK);
    WANT(PAPI_start(set), PAPI_OK);
    WANT(kistalub_go(OCCURRENCES, NULL), PAPI_OK);
    WANT(PAPI_stop(set, &value), PAPI_OK);
    WANT(value, 255 * OCCURRENCES);
    WANT(PAPI_cleanup_eventset(set), PAPI_OK);
    WANT(PAPI_destroy_eventset(&set), PAPI_OK);
    return unused;
}

static void run(const pthread_attr_t *attributes) {
    pthread_t thread;
    WANT(pthread_create(&thread, attributes, count, NULL), 0);
    WANT(pthread_join(thread, NULL), 0);
}

int main(void) {
    pthread_attr_t attributes;
    int number = 0;
    WANT(mallopt(M_MMAP_THRESHOLD, LARGE), 1);
    write_stream();
    setenv("KISTALUB_STREAM", stream, 1);
    WANT(pthread_attr_init(&attributes), 0);
    WANT(pthread_attr_setstacksize(&attributes, STACK), 0);
    WANT(PAPI_library_init(PAPI_VER_CURRENT), PAPI_VER_CURRENT);
    /* for the copy of one more thread, its stack, and the list */
    const struct rlimit most = { data_bytes() + SIZE + SIZE * 3 / 4, RLIM_INFINITY };
    WANT(setrlimit(RLIMIT_DATA, &most), 0);
    for (int i = 0; i < THREADS; i++) run(&attributes);
    WANT(PAPI_list_threads(NULL, &number), PAPI_OK);
    WANT(number, THREADS + 1);
    WANT(pthread_attr_destroy(&attributes), 0);
    PAPI_shutdown();
    unlink(stream);
    puts("a thousand threads have come and gone");
    return 0;
}
