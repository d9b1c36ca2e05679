/* A hundred thousand regions take no more memory than PAPI takes for them: 142 bytes each. */
#define _DEFAULT_SOURCE
#include "papi.h"
#include "wanted.h"
#include <malloc.h>

#define REGIONS 100000
#define BYTES 142

int main(void) {
    setenv("PAPI_EVENTS", "CYCLES", 1);
    setenv("PAPI_OUTPUT_DIRECTORY", "/dev/null", 1); /* nothing is written */
    WANT(freopen("/dev/null", "w", stderr) != NULL, 1);
    WANT(PAPI_hl_region_begin("first"), PAPI_OK);
    WANT(PAPI_hl_region_end("first"), PAPI_OK);
    size_t before = mallinfo2().uordblks;
    for (int i = 0; i < REGIONS; i++) {
        WANT(PAPI_hl_region_begin("region"), PAPI_OK);
        WANT(PAPI_hl_region_end("region"), PAPI_OK);
    }
    size_t took = mallinfo2().uordblks - before;
    if (took > (size_t)REGIONS * BYTES) printf("each region takes %zu bytes\n", took / REGIONS);
    WANT(took <= (size_t)REGIONS * BYTES, 1);
    PAPI_shutdown();
    puts("each region takes little");
    return 0;
}
