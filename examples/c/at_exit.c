/* A program counts while it ends: in a function that is called at exit, and in one that is called
 * after that. */
#include "papi.h"
#include "wanted.h"

static void count(void) {
    int set = PAPI_NULL;
    long long count;
    WANT(PAPI_library_init(PAPI_VER_CURRENT), PAPI_VER_CURRENT);
    WANT(PAPI_create_eventset(&set), PAPI_OK);
    WANT(PAPI_add_named_event(set, "INST_RETIRED"), PAPI_OK);
    WANT(PAPI_start(set), PAPI_OK);
    WANT(kistalub_go(2, NULL), PAPI_OK);
    WANT(PAPI_stop(set, &count), PAPI_OK);
    WANT(count, 2 * 255);
    PAPI_shutdown();
}

static void at_exit(void) {
    count();
    puts("counted at exit");
}

__attribute__((destructor)) static void at_the_end(void) {
    count();
    puts("counted at the end");
    fflush(stdout);
}

int main(void) {
    WANT(atexit(at_exit), 0);
    count();
    return 0;
}
