/* The calls of a library of timers: each event that it knows is added if the processor has it, and
 * all are read at each timer. */
#include <papi.h>
#include <stdio.h>

#define EVENTS 3

int main(void) {
    static const struct { int code; const char *name; } wanted[EVENTS] = {
        { PAPI_DP_OPS, "floating point operations" }, { PAPI_LD_INS, "loads" },
        { PAPI_TOT_INS, "instructions" },
    };
    int set = PAPI_NULL, added = 0, place[EVENTS];
    long long began[EVENTS], ended[EVENTS];
    if (PAPI_library_init(PAPI_VER_CURRENT) != PAPI_VER_CURRENT) return 1;
    if (PAPI_create_eventset(&set) != PAPI_OK) return 2;
    for (int i = 0; i < EVENTS; i++) {
        place[i] = -1;
        if (PAPI_query_event(wanted[i].code) == PAPI_OK &&
            PAPI_add_event(set, wanted[i].code) == PAPI_OK)
            place[i] = added++;
        else printf("%s: not available\n", wanted[i].name);
    }
    long long before = PAPI_get_real_usec();
    if (PAPI_start(set) != PAPI_OK) return 3;
    if (PAPI_read(set, began) != PAPI_OK) return 4;
    if (PAPI_read(set, ended) != PAPI_OK) return 5;
    for (int i = 0; i < EVENTS; i++)
        if (place[i] >= 0)
            printf("%s: %lld and %lld\n", wanted[i].name, began[place[i]], ended[place[i]]);
    if (PAPI_get_real_usec() < before) return 6;
    if (PAPI_stop(set, ended) != PAPI_OK) return 7;
    return 0;
}
