/* First counts: two instructions are retired, and a set counts them. */
#include "papi.h"
#include <stdio.h>

int main(void) {
    int set = PAPI_NULL;
    long long counts[2];
    if (PAPI_library_init(PAPI_VER_CURRENT) != PAPI_VER_CURRENT) return 1;
    if (PAPI_create_eventset(&set) != PAPI_OK) return 2;
    if (PAPI_add_named_event(set, "INST_RETIRED") != PAPI_OK) return 3;
    if (PAPI_add_named_event(set, "CYCLES") != PAPI_OK) return 4;
    if (PAPI_start(set) != PAPI_OK) return 5;
    kistalub_go(3, NULL); /* on a machine with counters, the work that is measured */
    if (PAPI_stop(set, counts) != PAPI_OK) return 6;
    printf("%d events: %lld instructions, %lld cycles\n", PAPI_num_events(set), counts[0], counts[1]);
    PAPI_shutdown();
    return 0;
}
