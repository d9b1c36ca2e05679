/* Time before there is a library: the model's stands at 0, the machine's goes on. */
#include "papi.h"
#include "wanted.h"

int main(void) {
    WANT(PAPI_get_real_cyc(), 0);
    WANT(PAPI_get_real_nsec(), 0);
    WANT(PAPI_get_real_usec(), 0);
    WANT(PAPI_get_virt_cyc(), 0);
    WANT(PAPI_get_virt_nsec(), 0);
    WANT(PAPI_get_virt_usec(), 0);
    setenv("KISTALUB_CLOCK", "real", 1);
    WANT(PAPI_get_real_usec() > 0, 1);
    WANT(PAPI_get_real_nsec() > 0, 1);
    WANT(PAPI_get_real_cyc() > 0, 1);
    WANT(PAPI_get_virt_usec() > 0, 1);
    WANT(PAPI_get_virt_nsec() > 0, 1);
    WANT(PAPI_get_virt_cyc() > 0, 1);
    const long long before = PAPI_get_real_nsec(), cycles = PAPI_get_real_cyc(),
                    after = PAPI_get_real_nsec();
    WANT(before <= cycles && cycles <= after, 1); /* a cycle in a nanosecond */
    WANT(PAPI_is_initialized(), PAPI_NOT_INITED);
    puts("each clock is there");
    return 0;
}
