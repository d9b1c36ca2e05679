/* What the four kernels share: a set of PAPI's events around a piece of work (docs/PROFILER.md). */
#ifndef KERNELS_H
#define KERNELS_H
#include "papi.h"
#include "wanted.h"

enum { INSTRUCTIONS, LOADS, STORES, OPERATIONS, MISSES, MISPREDICTED, EVENTS };

typedef struct { long long of[EVENTS]; } counts;

static int make_set(void) {
    static const char *const names[EVENTS] = {"PAPI_TOT_INS", "PAPI_LD_INS", "PAPI_SR_INS",
                                              "PAPI_FP_OPS", "PAPI_L1_DCM", "PAPI_BR_MSP"};
    int set = PAPI_NULL;
    WANT(PAPI_library_init(PAPI_VER_CURRENT), PAPI_VER_CURRENT);
    WANT(PAPI_create_eventset(&set), PAPI_OK);
    for (int i = 0; i < EVENTS; i++) WANT(PAPI_add_named_event(set, names[i]), PAPI_OK);
    return set;
}

/* What a call of the work counts. A compiler does not know which work it is, so it moves none. */
static counts count(int set, void (*volatile work)(int size), int size) {
    counts made;
    WANT(PAPI_start(set), PAPI_OK);
    work(size);
    WANT(PAPI_stop(set, made.of), PAPI_OK);
    return made;
}

/* What MORE elements add to SIZE of them: what a call costs whatever its size is not in it. */
static inline counts count_more(int set, void (*work)(int size), int size, int more) {
    counts less = count(set, work, size), all = count(set, work, size + more);
    for (int i = 0; i < EVENTS; i++) all.of[i] -= less.of[i];
    return all;
}
#endif
