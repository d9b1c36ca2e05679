/* The process: the library begins and ends. */
#include "posix.h"
#include "calls.h"
#include "clock.h"
#include "codes.h"
#include "components.h"
#include "environment.h"
#include "files.h"
#include "locks.h"
#include "machine.h"
#include "options.h"
#include "papi.h"
#include "process.h"
#include "streams.h"
#include "thread.h"
#include "versions.h"

#include <pthread.h>
#include <stdatomic.h>
#include <stdint.h>
#include <stdio.h>
#include <unistd.h>

atomic_uint kl_generation;

/* Under kl_beginning: the number of the last library, and the process that began it. */
static struct { unsigned last; pid_t process; } begun;
/* Under kl_lock: what kistalub_init gave or the library was begun with, and whether it was
 * kistalub_init. */
static struct { kl_files *files; int are_given; } named;

void kl_release_files(kl_files *held) {
    pthread_mutex_lock(&kl_lock);
    int last = held && --held->holders == 0;
    pthread_mutex_unlock(&kl_lock);
    if (last) kl_free_files(held);
}

/* The files that the library was begun with, or NULL. The caller gives them back by
 * kl_release_files. */
kl_files *kl_hold_files(void) {
    pthread_mutex_lock(&kl_lock);
    kl_files *held = named.files;
    if (held) held->holders++;
    pthread_mutex_unlock(&kl_lock);
    return held;
}

/* Puts files in place of those that there are. */
static void take_files(kl_files *made, int are_given) {
    pthread_mutex_lock(&kl_lock);
    kl_files *old = named.files;
    named.files = made;
    named.are_given = are_given;
    pthread_mutex_unlock(&kl_lock);
    kl_release_files(old);
}

/* Whether a library is begun that this process has, and not the one that it was forked from. Under
 * kl_beginning. */
static int is_begun_here(void) { return kl_is_open() && begun.process == getpid(); }

int kistalub_init(const char *unit, const char *presets, const char *cpu, const char *streams) {
    CALL(kistalub_init);
    NO_CANCELLATION;
    kl_files *files = NULL;
    if (!unit) return PAPI_EINVAL;
    pthread_mutex_lock(&kl_beginning);
    int code = is_begun_here() ? PAPI_EINVAL : kl_read_files(unit, presets, cpu, streams, &files);
    if (code == PAPI_OK) take_files(files, 1);
    pthread_mutex_unlock(&kl_beginning);
    return code;
}

static int files_of_environment(void) {
    kl_files *held = kl_hold_files(), *made = NULL;
    if (held) {
        kl_release_files(held);
        return PAPI_OK;
    }
    const char *unit = kl_variable("KISTALUB_UNIT");
    if (!unit) {
        fprintf(stderr, "papi: no unit file: KISTALUB_UNIT is not set\n");
        return PAPI_ESYS;
    }
    int code = kl_read_files(unit, kl_variable("KISTALUB_PRESETS"), kl_variable("KISTALUB_CPU"),
                             kl_variable("KISTALUB_STREAM"), &made);
    if (code == PAPI_OK) code = kl_judge_stream(made);
    if (code == PAPI_OK) take_files(made, 0);
    else if (made) kl_free_files(made);
    return code;
}

/* A new library, of which the calling thread is number 0. */
static int begin_library(void) {
    static const uint32_t first = 0;
    if (++begun.last == 0) begun.last = 1;
    begun.process = getpid();
    int code = kl_enters(&first, begun.last);
    if (code == PAPI_OK) kl_current_thread(&code);
    return code;
}

/* Files that kistalub_init gave to the process from which this one was forked are this one's
 * too. */
static void end_library(int keeps_files) {
    kl_leaves();
    kl_forget_threads();
    kl_forget_ids();
    kl_forget_codes();
    kl_components_end();
    kl_machine_ends();
    if (!keeps_files) take_files(NULL, 0);
}

/* What the environment has besides the files of the library. */
static int judge_environment(void) {
    int code = kl_options_begin();
    if (code == PAPI_OK) code = kl_time_begins();
    return code == PAPI_OK ? kl_judge_hierarchy() : code;
}

/* A process that was forked after the library began begins another one. */
static int begin(void) {
    if (is_begun_here()) return PAPI_OK;
    if (kl_is_open()) end_library(named.are_given);
    int code = kl_prepare();
    if (code == PAPI_OK) code = judge_environment();
    if (code == PAPI_OK) code = files_of_environment();
    if (code != PAPI_OK) return code;
    code = begin_library();
    if (code != PAPI_OK) end_library(0);
    return code;
}

/* Each version whose major number is the library's is taken, and is what is answered. */
int PAPI_library_init(int version) {
    CALL(PAPI_library_init);
    NO_CANCELLATION;
    if (version < 0 || PAPI_VERSION_MAJOR(version) != PAPI_VERSION_MAJOR(PAPI_VERSION))
        RETURN(PAPI_EINVAL);
    pthread_mutex_lock(&kl_beginning);
    int code = begin();
    pthread_mutex_unlock(&kl_beginning);
    if (code != PAPI_OK) RETURN(code);
    kl_takes_version(version);
    return version;
}

void PAPI_shutdown(void) {
    CALL(PAPI_shutdown);
    NO_CANCELLATION;
    pthread_mutex_lock(&kl_beginning);
    if (kl_is_open()) end_library(0);
    pthread_mutex_unlock(&kl_beginning);
}
