/* So many readings of a set, for bench/live. It counts what the library does not do, and the
 * program does before each. */
#include <papi.h>
#include <stdlib.h>

int main(int count, char **words) {
    int set = PAPI_NULL;
    long long values[2];
    long readings = count > 1 ? atol(words[1]) : 0;
    if (PAPI_library_init(PAPI_VER_CURRENT) != PAPI_VER_CURRENT || PAPI_create_eventset(&set) ||
        PAPI_add_named_event(set, "FP:SCALAR_DOUBLE") || PAPI_add_named_event(set, "X87:ALL") ||
        PAPI_start(set))
        return 1;
    for (long i = 0; i < readings; i++) {
        __asm__ volatile("addsd %%xmm0, %%xmm0\n\tfldz\n\tfadd %%st(0)\n\tfstp %%st(0)"
                         :
                         :
                         : "xmm0");
        PAPI_read(set, values);
    }
    return PAPI_stop(set, values) != PAPI_OK || values[0] != readings || values[1] != readings;
}
