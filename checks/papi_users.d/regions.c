/* The high-level calls: a region, and another one twice inside it. */
#include <papi.h>
#include <stdio.h>

int main(void) {
    if (PAPI_hl_region_begin("outer") != PAPI_OK) return 1;
    for (int i = 0; i < 2; i++) {
        if (PAPI_hl_region_begin("inner") != PAPI_OK) return 2;
        if (PAPI_hl_region_end("inner") != PAPI_OK) return 3;
    }
    if (PAPI_hl_region_end("outer") != PAPI_OK) return 4;
    puts("counted");
    return 0;
}
