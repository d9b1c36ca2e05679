/* Two events that want the same counter, multiplexed by slices of two ticks. */
#include "papi.h"
#include "wanted.h"

int main(void) {
    int set = PAPI_NULL, status;
    long long counts[2];
    PAPI_option_t option;
    WANT(PAPI_library_init(PAPI_VER_CURRENT), PAPI_VER_CURRENT);
    WANT(PAPI_multiplex_init(), PAPI_OK);
    WANT(PAPI_create_eventset(&set), PAPI_OK);
    option.multiplex.eventset = set;
    option.multiplex.ns = 2;
    option.multiplex.flags = 0;
    WANT(PAPI_set_opt(PAPI_MULTIPLEX, &option), PAPI_OK);
    WANT(PAPI_get_multiplex(set), 1);
    WANT(PAPI_add_named_event(set, "BR_INST"), PAPI_OK);
    WANT(PAPI_add_named_event(set, "BR_MISP"), PAPI_OK);
    WANT(PAPI_start(set), PAPI_OK);
    WANT(kistalub_go(8, NULL), PAPI_OK);
    WANT(PAPI_read(set, counts), PAPI_OK);
    WANT(PAPI_state(set, &status), PAPI_OK);
    WANT(status, PAPI_RUNNING | PAPI_MULTIPLEXING);
    printf("%lld branches, %lld mispredicted\n", counts[0], counts[1]);
    PAPI_shutdown();
    return 0;
}
