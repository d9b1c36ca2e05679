/* Time. There are three clocks: the model's, in which each occurrence of the thread's stream takes
 * a cycle, so that it repeats; the machine's, with KISTALUB_CLOCK=real; and that of a program that
 * runs under the tool (live.h), which are the cycles of the modelled machine. KISTALUB_MHZ turns
 * cycles into nanoseconds and back.
 *
 * The invariant. The model's time is `happened` of the calling thread, and nothing here changes it:
 * it goes on where occurrences do, in counting.c, by as many as the core has consumed. So two
 * readings without an occurrence in between show the same time, on any machine, and real and
 * virtual time are one. Under the tool real time has the cycles of all threads, and virtual time
 * the thread's own. A thread that has ended stays at the time of its end (kl_past_time). Without a
 * library the model's time is 0; which clock there is, the environment says then.
 *
 * The order. `happened` goes up in the same stretch as the core's work (signals.c) and before any
 * handler is called, so a handler reads the time of the occurrence that it was called for. While it
 * runs time stands, since nothing happens. PAPI_read_ts reads first, with its step, and takes the
 * time after that.
 *
 * A handler of a signal may tell the time, whatever it interrupts: that takes no lock and no
 * memory, unless it is the thread's first call. A jump out of a handler leaves nothing to be done
 * here. What had happened has been added; the rate and the clock are each one word, which
 * PAPI_library_init sets. */
#include "posix.h"
#include "calls.h"
#include "clock.h"
#include "counting.h"
#include "environment.h"
#include "live.h"
#include "papi.h"
#include "process.h"
#include "thread.h"

#include <stdatomic.h>
#include <stdbool.h>
#include <stdint.h>
#include <stdio.h>
#include <string.h>
#include <time.h>

#define USUAL_MHZ 1000
#define MOST_MHZ 1000000

/* The rate, and whether the time is the machine's. */
static struct { atomic_uint mhz; atomic_int is_real; } watch = { USUAL_MHZ, 0 };

uint32_t kl_mhz(void) { return atomic_load(&watch.mhz); }

/* Takes KISTALUB_MHZ and KISTALUB_CLOCK: PAPI_ESYS, and a line on standard error, if they are
 * neither a rate nor a clock. */
int kl_time_begins(void) {
    const char *clock = kl_variable("KISTALUB_CLOCK");
    uint32_t rate = USUAL_MHZ;
    int code = kl_number_named("KISTALUB_MHZ", 1, MOST_MHZ, &rate);
    if (code == PAPI_OK && clock && strcmp(clock, "real") && strcmp(clock, "model")) {
        fprintf(stderr, "papi: KISTALUB_CLOCK: neither real nor model: %s\n", clock);
        code = PAPI_ESYS;
    }
    atomic_store(&watch.mhz, rate);
    atomic_store(&watch.is_real, clock && !strcmp(clock, "real"));
    return code;
}

bool kl_is_model_time(void) { return !atomic_load(&watch.is_real); }

/* Before there is a library the model's time stands at 0, and the machine's goes on. */
static bool is_real(void) {
    if (kl_is_open()) return atomic_load_explicit(&watch.is_real, memory_order_relaxed);
    const char *clock = kl_variable("KISTALUB_CLOCK");
    return clock && !strcmp(clock, "real");
}

/* Cycles in nanoseconds, at the rate of the clock: whole seconds first, so that nothing
 * overflows. */
static long long nanoseconds_of(uint64_t cycles) {
    uint64_t mhz = kl_mhz(), second = mhz * 1000000;
    return (long long)(cycles / second * 1000000000 + cycles % second * 1000 / mhz);
}

static long long cycles_of(const struct timespec *time) {
    long long mhz = kl_mhz();
    return (long long)time->tv_sec * mhz * 1000000 + (long long)time->tv_nsec * mhz / 1000;
}

/* What a clock of the machine shows. */
static struct timespec machine_time(clockid_t clock) {
    struct timespec now = { 0, 0 };
    clock_gettime(clock, &now);
    return now;
}

/* The model's time: how many occurrences of the calling thread's stream have happened, or the
 * cycles of the program that runs under the tool. */
static uint64_t model_time(clockid_t clock) {
    int code;
    if (kl_is_live()) return kl_live_cycles(clock == CLOCK_MONOTONIC);
    const thread_state *t = kl_peek_thread();
    if (!t || !t->is_opened) t = kl_current_thread(&code);
    return t ? t->happened : kl_past_time();
}

static long long cycles(clockid_t clock) {
    if (!is_real()) return (long long)model_time(clock);
    struct timespec now = machine_time(clock);
    return cycles_of(&now);
}

static long long nanoseconds(clockid_t clock) {
    if (!is_real()) return nanoseconds_of(model_time(clock));
    struct timespec now = machine_time(clock);
    return (long long)now.tv_sec * 1000000000 + now.tv_nsec;
}

/* A function that tells the time. */
#define CLOCK(name, answer) \
    long long name(void) { \
        CALL(name); \
        return answer; \
    }

CLOCK(PAPI_get_real_cyc, cycles(CLOCK_MONOTONIC))
CLOCK(PAPI_get_real_nsec, nanoseconds(CLOCK_MONOTONIC))
CLOCK(PAPI_get_real_usec, nanoseconds(CLOCK_MONOTONIC) / 1000)
CLOCK(PAPI_get_virt_cyc, cycles(CLOCK_THREAD_CPUTIME_ID))
CLOCK(PAPI_get_virt_nsec, nanoseconds(CLOCK_THREAD_CPUTIME_ID))
CLOCK(PAPI_get_virt_usec, nanoseconds(CLOCK_THREAD_CPUTIME_ID) / 1000)

int PAPI_read_ts(int set, long long *values, long long *cyc) {
    CALL(PAPI_read_ts);
    if (!values || !cyc) RETURN(PAPI_EINVAL);
    int code = kl_read(set, values);
    if (code == PAPI_OK) *cyc = cycles(CLOCK_MONOTONIC);
    RETURN(code);
}
