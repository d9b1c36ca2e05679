/* A handler that is told each 1,000 instructions, and reads the set. */
#include "papi.h"
#include "wanted.h"

static void handler(int set, void *address, long long vector, void *context) {
    long long count;
    (void)context;
    WANT(PAPI_read(set, &count), PAPI_OK);
    printf("set %d at %p: events %llx, %lld so far\n", set, address, (unsigned long long)vector, count);
}

int main(void) {
    int set = PAPI_NULL, event, status;
    long long count;
    WANT(PAPI_library_init(PAPI_VER_CURRENT), PAPI_VER_CURRENT);
    WANT(PAPI_create_eventset(&set), PAPI_OK);
    WANT(PAPI_event_name_to_code("INST_RETIRED", &event), PAPI_OK);
    WANT(event, 0x40000000);
    WANT(PAPI_add_event(set, event), PAPI_OK);
    WANT(PAPI_overflow(set, event, 255, 0, handler), PAPI_EINVAL);
    WANT(PAPI_overflow(set, event, 1000, 0, handler), PAPI_OK);
    WANT(PAPI_start(set), PAPI_OK);
    WANT(PAPI_state(set, &status), PAPI_OK);
    WANT(status, PAPI_RUNNING | PAPI_OVERFLOWING);
    WANT(kistalub_go(8, NULL), PAPI_OK);
    WANT(PAPI_stop(set, &count), PAPI_OK);
    printf("%lld in all\n", count);
    PAPI_shutdown();
    return 0;
}
