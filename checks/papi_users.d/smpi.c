/* The calls of a simulator of MPI programs: it counts the events of a list in what each process
 * computes between two calls of MPI. */
#include <papi.h>
#include <pthread.h>
#include <stdio.h>

#define EVENTS 2

static unsigned long own_id(void) { return (unsigned long)pthread_self(); }

int main(void) {
    static const char *const names[EVENTS] = { "PAPI_TOT_INS", "PAPI_TOT_CYC" };
    int set = PAPI_NULL;
    long long counts[EVENTS];
    if (PAPI_library_init(PAPI_VER_CURRENT) != PAPI_VER_CURRENT) return 1;
    if (PAPI_thread_init(own_id) != PAPI_OK) return 2;
    if (PAPI_create_eventset(&set) != PAPI_OK) return 3;
    for (int i = 0; i < EVENTS; i++) {
        int code;
        if (PAPI_event_name_to_code(names[i], &code) != PAPI_OK) return 4;
        if (PAPI_add_event(set, code) != PAPI_OK) return 5;
    }
    if (PAPI_start(set) != PAPI_OK) return 6;
    if (PAPI_stop(set, counts) != PAPI_OK) return 7;
    for (int i = 0; i < EVENTS; i++) printf("%s %lld\n", names[i], counts[i]);
    return 0;
}
