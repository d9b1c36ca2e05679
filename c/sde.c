/* What PAPI's library of software defined events (libsde) looks up in the library of a program. Its
 * events are none of the model's, so nothing overflows. */

#include "posix.h"

#include <stdint.h>

__attribute__((visibility("default"))) void papi_sde_check_overflow_status(uint32_t number,
                                                                           long long value);
__attribute__((visibility("default"))) int papi_sde_set_timer_for_overflow(void);

void papi_sde_check_overflow_status(uint32_t number, long long value) {
    (void)number;
    (void)value;
}

/* 0: no timer is set. */
int papi_sde_set_timer_for_overflow(void) { return 0; }
