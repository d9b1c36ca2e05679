/* The high level: regions inside regions, readings, and what is written at the end; and the
 * rates. */
#define _DEFAULT_SOURCE
#include "papi.h"
#include "wanted.h"
#include <stdlib.h>
#include <string.h>
#include <sys/stat.h>
#include <unistd.h>

static char above[] = "/tmp/kistalub_regions_XXXXXX";

static void remove_output(void) {
    char path[PAPI_2MAX_STR_LEN];
    snprintf(path, sizeof path, "%s/papi_hl_output/rank_000003.json", above);
    WANT(unlink(path), 0);
    snprintf(path, sizeof path, "%s/papi_hl_output", above);
    WANT(rmdir(path), 0);
    WANT(rmdir(above), 0);
}

static void rates(void) {
    float real, own, rate;
    long long events, cycles, reference;
    WANT(PAPI_rate_stop(), PAPI_ENOEVNT);
    WANT(PAPI_ipc(&real, &own, &events, NULL), PAPI_EINVAL);
    WANT(PAPI_ipc(&real, &own, &events, &rate), PAPI_OK);
    WANT(events, 0);
    WANT(kistalub_go(3, NULL), PAPI_OK);
    WANT(PAPI_ipc(&real, &own, &events, &rate), PAPI_OK);
    printf("ipc: %lld instructions, %.3f a cycle\n", events, (double)rate);
    WANT(PAPI_flops_rate(PAPI_TOT_INS, &real, &own, &events, &rate), PAPI_ENOEVNT);
    WANT(PAPI_flips_rate(PAPI_FP_INS, &real, &own, &events, &rate), PAPI_ENOEVNT);
    WANT(PAPI_epc(PAPI_BR_INS, &real, &own, &reference, &cycles, &events, &rate), PAPI_OK);
    WANT(reference == 0 && cycles == 0 && events == 0, 1);
    WANT(kistalub_go(3, NULL), PAPI_OK);
    WANT(PAPI_epc(PAPI_BR_INS, &real, &own, &reference, &cycles, &events, &rate), PAPI_OK);
    printf("epc: %lld branches, %lld cycles, %lld of reference\n", events, cycles, reference);
    WANT(PAPI_rate_stop(), PAPI_OK);
    WANT(PAPI_rate_stop(), PAPI_ENOEVNT);
}

int main(void) {
    WANT(mkdtemp(above) != NULL, 1);
    atexit(remove_output);
    setenv("PAPI_OUTPUT_DIRECTORY", above, 1);
    setenv("PAPI_EVENTS", "PAPI_BR_PRC,PAPI_TOT_INS=delta, lab::BR_INST:TAKEN =instant,PAPI_FP_OPS",
           1);
    setenv("PAPI_REPORT", "1", 1);
    setenv("SLURM_PROCID", "3", 1);
    rates();
    WANT(PAPI_hl_read("whole"), PAPI_EMISC);
    WANT(PAPI_hl_region_begin("whole"), PAPI_OK);
    WANT(kistalub_go(1, NULL), PAPI_OK);
    WANT(PAPI_hl_region_begin("part \"a\""), PAPI_OK);
    WANT(kistalub_go(2, NULL), PAPI_OK);
    WANT(PAPI_hl_read("part \"a\""), PAPI_OK);
    WANT(kistalub_go(1, NULL), PAPI_OK);
    WANT(PAPI_hl_region_end("part \"a\""), PAPI_OK);
    WANT(PAPI_hl_region_end("whole"), PAPI_OK);
    WANT(PAPI_hl_stop(), PAPI_OK);
    WANT(PAPI_hl_stop(), PAPI_ENOEVNT);
    PAPI_shutdown();
    fflush(stdout);
    return 0;
}
