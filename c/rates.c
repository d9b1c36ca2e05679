/* Rates: a set of the calling thread that each call stops, tells of, and starts anew. */
#include "posix.h"
#include "calls.h"
#include "high_level.h"
#include "papi.h"
#include "process.h"
#include "thread.h"

#include <stdatomic.h>

#define MOST_RATED 3

enum { NOTHING, FLIPS, FLOPS, IPC, EPC };

/* What the thread counts: the kind of rate, its event, the times in microseconds at which the set
 * was started, and the library that has the set. */
static _Thread_local struct {
    int kind, event, set;
    long long real, virt;
    unsigned generation;
} rate = { NOTHING, 0, PAPI_NULL, 0, 0, 0 };

/* In a library that began since, the number may be that of another set. */
static int counted_kind(void) {
    return rate.generation == atomic_load(&kl_generation) ? rate.kind : NOTHING;
}

static void note_times(long long real, long long virt) {
    rate.real = real;
    rate.virt = virt;
}

/* Takes what was counted from the set. A handler of a signal may jump out of this, and out of the
 * others: the next rate begins with what is left of the set. */
static int stop(long long *values) {
    rate.kind = NOTHING;
    int code = PAPI_stop(rate.set, values);
    PAPI_cleanup_eventset(rate.set);
    if (PAPI_destroy_eventset(&rate.set) != PAPI_OK) rate.set = PAPI_NULL;
    return code;
}

static void drop_rest(void) {
    long long values[MOST_RATED];
    if (rate.set != PAPI_NULL && rate.generation == atomic_load(&kl_generation)) stop(values);
    rate.set = PAPI_NULL;
}

int PAPI_rate_stop(void) {
    CALL(PAPI_rate_stop);
    long long values[MOST_RATED];
    if (counted_kind() != NOTHING) RETURN(stop(values));
    drop_rest();
    RETURN(PAPI_ENOEVNT);
}

/* Opens the library with support of threads, where the program has not. */
int kl_begin_library(void) {
    int code = kl_is_open() ? PAPI_OK : PAPI_library_init(PAPI_VER_CURRENT);
    return code == PAPI_OK || code == (int)PAPI_VER_CURRENT ? kl_thread_support() : code;
}

/* A new set with the events, which is started. */
static int start(int kind, int *events, int number) {
    drop_rest();
    rate.kind = NOTHING;
    rate.generation = atomic_load(&kl_generation);
    int code = PAPI_create_eventset(&rate.set);
    for (int i = 0; code == PAPI_OK && i < number; i++) code = PAPI_add_event(rate.set, events[i]);
    if (code == PAPI_OK) code = PAPI_start(rate.set);
    if (code != PAPI_OK) {
        PAPI_cleanup_eventset(rate.set);
        if (PAPI_destroy_eventset(&rate.set) != PAPI_OK) rate.set = PAPI_NULL;
        return code;
    }
    rate.kind = kind;
    rate.event = events[0];
    note_times(PAPI_get_real_usec(), PAPI_get_virt_usec());
    return PAPI_OK;
}

/* The first call of a kind starts, and each later one gives the seconds and the values since the
 * one before. Whether it gives any. */
static int rated(int kind, int *events, int number, float *rtime, float *ptime, long long *values,
                 int *gives) {
    *gives = 0;
    *rtime = *ptime = 0;
    int code = kl_high_level_runs() ? PAPI_hl_stop() : kl_begin_library();
    for (int i = 0; code == PAPI_OK && i < number; i++) code = PAPI_query_event(events[i]);
    if (code != PAPI_OK) return code;
    if (counted_kind() != kind || rate.event != events[0]) {
        long long dropped[MOST_RATED];
        if (counted_kind() != NOTHING) code = stop(dropped);
        return code == PAPI_OK ? start(kind, events, number) : code;
    }
    rate.kind = NOTHING;
    code = PAPI_stop(rate.set, values);
    if (code == PAPI_OK) {
        long long real = PAPI_get_real_usec(), virt = PAPI_get_virt_usec();
        *rtime = (float)((double)(real - rate.real) * 1e-6);
        *ptime = (float)((double)(virt - rate.virt) * 1e-6);
        note_times(real, virt);
        *gives = 1;
        code = PAPI_start(rate.set);
    }
    if (code == PAPI_OK) rate.kind = kind;
    return code;
}

/* Millions of the event in a second of the thread's time. */
static int per_second(int kind, int event, float *rtime, float *ptime, long long *counted,
                      float *rate_of) {
    int events[1] = { event }, gives;
    long long values[1] = { 0 };
    if (!rtime || !ptime || !counted || !rate_of) return PAPI_EINVAL;
    int code = rated(kind, events, 1, rtime, ptime, values, &gives);
    *counted = gives ? values[0] : 0;
    *rate_of = gives && *ptime > 0 ? (float)((double)values[0] * 1e-6 / (double)*ptime) : 0;
    return code;
}

int PAPI_flips_rate(int event, float *rtime, float *ptime, long long *flpins, float *mflips) {
    CALL(PAPI_flips_rate);
    if (event != PAPI_FP_INS && event != PAPI_VEC_SP && event != PAPI_VEC_DP) RETURN(PAPI_ENOEVNT);
    RETURN(per_second(FLIPS, event, rtime, ptime, flpins, mflips));
}

int PAPI_flops_rate(int event, float *rtime, float *ptime, long long *flpops, float *mflops) {
    CALL(PAPI_flops_rate);
    if (event != PAPI_FP_OPS && event != PAPI_SP_OPS && event != PAPI_DP_OPS) RETURN(PAPI_ENOEVNT);
    RETURN(per_second(FLOPS, event, rtime, ptime, flpops, mflops));
}

static float ratio(long long events, long long cycles) {
    return cycles ? (float)((double)events / (double)cycles) : 0;
}

int PAPI_ipc(float *rtime, float *ptime, long long *ins, float *ipc) {
    CALL(PAPI_ipc);
    int events[2] = { PAPI_TOT_INS, PAPI_TOT_CYC }, gives;
    long long values[2] = { 0, 0 };
    if (!rtime || !ptime || !ins || !ipc) RETURN(PAPI_EINVAL);
    int code = rated(IPC, events, 2, rtime, ptime, values, &gives);
    *ins = gives ? values[0] : 0;
    *ipc = gives ? ratio(values[0], values[1]) : 0;
    RETURN(code);
}

int PAPI_epc(int event, float *rtime, float *ptime, long long *ref, long long *core, long long *evt,
             float *epc) {
    CALL(PAPI_epc);
    int events[MOST_RATED] = { event ? event : PAPI_TOT_INS, PAPI_TOT_CYC, PAPI_REF_CYC }, gives;
    long long values[MOST_RATED] = { 0, 0, 0 };
    if (!rtime || !ptime || !ref || !core || !evt || !epc) RETURN(PAPI_EINVAL);
    int code = kl_begin_library();
    int number =
        code == PAPI_OK && PAPI_query_event(PAPI_REF_CYC) == PAPI_OK ? MOST_RATED : MOST_RATED - 1;
    if (code == PAPI_OK) code = rated(EPC, events, number, rtime, ptime, values, &gives);
    else gives = 0;
    *ref = gives ? values[2] : 0;
    *core = gives ? values[1] : 0;
    *evt = gives ? values[0] : 0;
    *epc = gives ? ratio(values[0], values[1]) : 0;
    RETURN(code);
}

int kl_rate_runs(void) { return counted_kind() != NOTHING; }

void kl_rate_ends(void) {
    CALL(PAPI_rate_stop);
    drop_rest();
}
