// A handler throws an exception out of the call that it was called in: time goes on after that.
#include "papi.h"
#include <cstdio>

static int told;

static void handler(int, void *, long long, void *) {
    if (++told == 1) throw told;
}

int main() {
    int set = PAPI_NULL, event, caught = 0;
    long long count = 0;
    if (PAPI_library_init(PAPI_VER_CURRENT) != PAPI_VER_CURRENT ||
        PAPI_create_eventset(&set) != PAPI_OK)
        return 1;
    if (PAPI_event_name_to_code("INST_RETIRED", &event) != PAPI_OK ||
        PAPI_add_event(set, event) != PAPI_OK)
        return 2;
    if (PAPI_overflow(set, event, 256, 0, handler) != PAPI_OK || PAPI_start(set) != PAPI_OK)
        return 3;
    try {
        kistalub_go(8, nullptr);
    } catch (int number) {
        caught = number;
    }
    if (kistalub_go(8, nullptr) != PAPI_OK || PAPI_stop(set, &count) != PAPI_OK) return 4;
    PAPI_shutdown();
    std::printf("caught %d, told %s, %lld\n", caught, told > 1 ? "again" : "once", count);
    return 0;
}
