/* 1,000,000 readings of three events through the library for C, an occurrence before each: readings
 * UNIT STREAM Prints the sum of what they gave, weighted by 1, 3 and 5, and the values of the
 * stop. */
#include "papi.h"
#include <stdio.h>
#include <stdlib.h>

enum { READINGS = 1000000 };

static int add_events(int *set) {
    static const char *const events[] = {"INST_RETIRED", "CYCLES", "BR_INST"};
    if (PAPI_library_init(PAPI_VER_CURRENT) != PAPI_VER_CURRENT ||
        PAPI_create_eventset(set) != PAPI_OK)
        return 0;
    for (int i = 0; i < 3; i++)
        if (PAPI_add_named_event(*set, events[i]) != PAPI_OK) return 0;
    return 1;
}

int main(int argc, char **argv) {
    int set = PAPI_NULL;
    long long values[3], sum = 0;
    if (argc != 3 || setenv("KISTALUB_UNIT", argv[1], 1) != 0 ||
        setenv("KISTALUB_STREAM", argv[2], 1) != 0 || setenv("KISTALUB_STEP", "1", 1) != 0)
        return 2;
    if (!add_events(&set) || PAPI_start(set) != PAPI_OK) return 1;
    for (int i = 0; i < READINGS; i++) {
        if (PAPI_read(set, values) != PAPI_OK) return 1;
        sum += values[0] + 3 * values[1] + 5 * values[2];
    }
    if (PAPI_stop(set, values) != PAPI_OK) return 1;
    printf("%lld\n%lld %lld %lld\n", sum, values[0], values[1], values[2]);
    PAPI_shutdown();
    return fflush(stdout) == 0 ? 0 : 5;
}
