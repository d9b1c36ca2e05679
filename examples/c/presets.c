/* Presets by their constants: which are available, and two that are derived. */
#include "papi.h"
#include "wanted.h"

int main(void) {
    int set = PAPI_NULL, event = PAPI_PRESET_MASK, modifier = PAPI_ENUM_FIRST,
        events[2] = { PAPI_RES_STL, PAPI_LST_INS }, listed[4], number = 4;
    long long counts[2];
    char name[PAPI_MAX_STR_LEN];
    WANT(PAPI_library_init(PAPI_VER_CURRENT), PAPI_VER_CURRENT);
    while (PAPI_enum_event(&event, modifier) == PAPI_OK) {
        WANT(PAPI_event_code_to_name(event, name), PAPI_OK);
        if (PAPI_query_event(event) == PAPI_OK) printf("0x%08x %s\n", (unsigned)event, name);
        modifier = PAPI_ENUM_EVENTS;
    }
    WANT(PAPI_create_eventset(&set), PAPI_OK);
    WANT(PAPI_query_named_event("PAPI_Tot_Ins"), PAPI_OK); /* in letters of any case after PAPI_ */
    WANT(PAPI_add_named_event(set, "PAPI_tot_ins"), PAPI_OK);
    WANT(PAPI_remove_named_event(set, "PAPI_Tot_ins"), PAPI_OK);
    WANT(PAPI_add_named_event(set, "papi_tot_ins"), PAPI_ENOEVNT);
    WANT(PAPI_add_events(set, events, 0), PAPI_EINVAL);
    WANT(PAPI_add_events(set, events, 2), PAPI_OK);
    WANT(PAPI_add_event(set, PAPI_L1_DCM), PAPI_ENOEVNT);
    WANT(PAPI_start(set), PAPI_OK);
    WANT(kistalub_go(3, NULL), PAPI_OK);
    WANT(PAPI_stop(set, counts), PAPI_OK);
    WANT(PAPI_list_events(set, listed, &number), PAPI_OK);
    WANT(number, 2);
    WANT(listed[0], PAPI_RES_STL);
    WANT(listed[1], PAPI_LST_INS);
    printf("%lld stalled, %lld loads and stores\n", counts[0], counts[1]);
    PAPI_shutdown();
    return 0;
}
