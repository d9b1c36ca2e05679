/* Where in a program the instructions are retired: a histogram of addresses, one bucket for each 16
 * bytes. */
#include "papi.h"
#include "wanted.h"

int main(void) {
    int set = PAPI_NULL, cycles, event;
    unsigned short buckets[4] = { 0, 0, 0, 0 };
    WANT(PAPI_library_init(PAPI_VER_CURRENT), PAPI_VER_CURRENT);
    WANT(PAPI_create_eventset(&set), PAPI_OK);
    WANT(PAPI_event_name_to_code("CYCLES", &cycles), PAPI_OK);
    WANT(PAPI_event_name_to_code("INST_RETIRED", &event), PAPI_OK);
    WANT(PAPI_add_event(set, cycles), PAPI_OK);
    WANT(PAPI_add_event(set, event), PAPI_OK);
    WANT(PAPI_profil(buckets, sizeof buckets, (vptr_t)0x400000, 65536 / 8, set, event, 256, PAPI_PROFIL_POSIX), PAPI_OK);
    /* The profile stays with its event when the one before it goes. */
    WANT(PAPI_remove_event(set, cycles), PAPI_OK);
    WANT(PAPI_start(set), PAPI_OK);
    WANT(kistalub_go(100, NULL), PAPI_OK);
    WANT(PAPI_stop(set, NULL), PAPI_OK);
    for (int i = 0; i < 4; i++) printf("%#x %u\n", 0x400000 + 16 * i, (unsigned)buckets[i]);
    PAPI_shutdown();
    return 0;
}
