/* A handler of a signal has a stack of its own, above or below that of its thread. A handler of
 * PAPI_overflow jumps out of it: time goes on after that. */
#define _DEFAULT_SOURCE
#include "papi.h"
#include "wanted.h"
#include <pthread.h>
#include <setjmp.h>
#include <signal.h>
#include <string.h>
#include <sys/mman.h>
#include <unistd.h>

#define ROOM ((size_t)8 << 20) /* so far apart that valgrind knows them for two */

static sigjmp_buf before;
static int set, told, jumps;
static char *stacks[2];

static void handler(int of, void *address, long long vector, void *context) {
    long long count;
    (void)address; (void)vector; (void)context;
    told++;
    WANT(kistalub_go(1, NULL), PAPI_EISRUN);
    WANT(PAPI_read(of, &count), PAPI_OK);
    if (jumps) siglongjmp(before, 1);
}

static void go(int number) {
    (void)number;
    WANT(kistalub_go(2, NULL), PAPI_OK);
}

/* In a handler of PAPI_overflow a signal comes: time stands in its handler too. */
static void stand(int number) {
    uint32_t went = 1;
    (void)number;
    WANT(kistalub_go(1, &went), PAPI_EISRUN);
    WANT(went, 0);
}

static void raise_in(int of, void *address, long long vector, void *context) {
    (void)of; (void)address; (void)vector; (void)context;
    told++;
    WANT(raise(SIGUSR2), 0);
    WANT(kistalub_go(1, NULL), PAPI_EISRUN);
}

static void set_signal(int number, void (*function)(int)) {
    struct sigaction action;
    memset(&action, 0, sizeof action);
    action.sa_handler = function;
    action.sa_flags = SA_ONSTACK;
    WANT(sigaction(number, &action, NULL), 0);
}

static void count(PAPI_overflow_handler_t function) {
    int event;
    set = PAPI_NULL;
    WANT(PAPI_create_eventset(&set), PAPI_OK);
    WANT(PAPI_event_name_to_code("INST_RETIRED", &event), PAPI_OK);
    WANT(PAPI_add_event(set, event), PAPI_OK);
    WANT(PAPI_overflow(set, event, 256, 0, function), PAPI_OK);
    WANT(PAPI_start(set), PAPI_OK);
    told = 0;
}

static void *work(void *other) {
    const stack_t alternate = { .ss_sp = other, .ss_size = ROOM },
                  none = { .ss_flags = SS_DISABLE };
    long long values;
    uint32_t went = 0;
    WANT(sigaltstack(&alternate, NULL), 0);
    count(handler);
    jumps = 1;
    if (!sigsetjmp(before, 1)) raise(SIGUSR1);
    WANT(told, 1);
    jumps = 0;
    WANT(kistalub_go(2, &went), PAPI_OK);
    WANT(went, 2);
    WANT(PAPI_stop(set, &values), PAPI_OK);
    WANT(values, 4 * 255);
    count(raise_in);
    WANT(kistalub_go(2, &went), PAPI_OK);
    WANT(went, 2);
    WANT(told, 1);
    WANT(PAPI_stop(set, &values), PAPI_OK);
    WANT(sigaltstack(&none, NULL), 0);
    return NULL;
}

int main(void) {
    char *rooms = mmap(NULL, 2 * ROOM, PROT_READ | PROT_WRITE, MAP_PRIVATE | MAP_ANONYMOUS, -1, 0);
    WANT(rooms != MAP_FAILED, 1);
    stacks[0] = rooms;
    stacks[1] = rooms + ROOM;
    set_signal(SIGUSR1, go);
    set_signal(SIGUSR2, stand);
    WANT(PAPI_library_init(PAPI_VER_CURRENT), PAPI_VER_CURRENT);
    for (int i = 0; i < 2; i++) {
        pthread_attr_t attributes;
        pthread_t thread;
        WANT(pthread_attr_init(&attributes), 0);
        WANT(pthread_attr_setstack(&attributes, stacks[i], ROOM), 0);
        WANT(pthread_create(&thread, &attributes, work, stacks[1 - i]), 0);
        WANT(pthread_join(thread, NULL), 0);
        WANT(pthread_attr_destroy(&attributes), 0);
    }
    PAPI_shutdown();
    munmap(rooms, 2 * ROOM);
    puts("time stands in handlers alone");
    return 0;
}
