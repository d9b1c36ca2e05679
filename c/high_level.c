/* The high level: regions count the events that PAPI_EVENTS names. What they counted is written
 * when the process ends. */
#include "posix.h"
#include "calls.h"
#include "high_level.h"
#include "locks.h"
#include "papi.h"
#include "process.h"
#include "regions.h"
#include "thread.h"

#include <pthread.h>
#include <stdatomic.h>
#include <stdint.h>
#include <stdlib.h>
#include <string.h>

/* What regions count is chosen once, under kl_region_lock, and stays. The rest is under the
 * lock. */
static counted_events counted;
static struct { region_thread *threads; int is_begun; atomic_int has_failed; } regions;
static _Thread_local region_thread *own;

/* No handler of a signal jumps out under the lock. */
static void lock_regions(void) {
    kl_change_enters();
    pthread_mutex_lock(&kl_region_lock);
}

static void unlock_regions(void) {
    pthread_mutex_unlock(&kl_region_lock);
    kl_change_leaves();
}

static void free_thread(region_thread *thread) {
    while (thread->first) {
        region *r = thread->first;
        thread->first = r->next;
        free(r->reads);
        free(r);
    }
    free(thread);
}

/* The regions of threads that still run stay: these may make calls until the last moment. */
static void end_of_process(void) {
    lock_regions();
    if (!atomic_exchange(&regions.has_failed, 1)) kl_write_regions(&counted, regions.threads);
    for (region_thread **at = &regions.threads; *at;) {
        region_thread *thread = *at;
        if (!thread->has_ended && thread != own) {
            at = &thread->next;
            continue;
        }
        *at = thread->next;
        free_thread(thread);
    }
    own = NULL;
    free(counted.folder);
    counted.folder = NULL;
    unlock_regions();
}

/* The first call in the process chooses the events. Under the lock. */
static int begin_regions(void) {
    if (atomic_load(&regions.has_failed)) return PAPI_EMISC;
    if (regions.is_begun) return PAPI_OK;
    int code = kl_choose_region_events(&counted);
    if (code == PAPI_OK) code = kl_find_region_folder(&counted);
    if (code == PAPI_OK && atexit(end_of_process)) code = PAPI_ESYS;
    regions.is_begun = code == PAPI_OK;
    return code;
}

static void forget_sets(region_thread *thread) {
    for (int i = 0; i < MOST_GROUPS; i++) thread->sets[i] = PAPI_NULL;
    thread->set_count = thread->runs = 0;
}

/* What the calling thread has, which is new at its first region. Under the lock. */
static int begin_thread(uint32_t number) {
    if (own) return PAPI_OK;
    region_thread *thread = calloc(1, sizeof *thread), **at = &regions.threads;
    if (!thread) return PAPI_ENOMEM;
    thread->number = number;
    forget_sets(thread);
    while (*at && (*at)->number <= number) at = &(*at)->next;
    thread->next = *at;
    *at = own = thread;
    return PAPI_OK;
}

/* A library that ended has taken the sets with it, and what the open regions counted: they do not
 * end any more. */
static void take_library(unsigned generation) {
    if (own->generation == generation) return;
    own->generation = generation;
    own->depth = 0;
    forget_sets(own);
}

static int has_sets(void) {
    return own && own->set_count && own->generation == atomic_load(&kl_generation);
}

static void drop_set(int *set) {
    long long values[MOST_VALUES];
    if (*set == PAPI_NULL) return;
    PAPI_stop(*set, values);
    PAPI_cleanup_eventset(*set);
    PAPI_destroy_eventset(set);
}

/* Ends the sets of the calling thread, so that it can count otherwise: also one that was being
 * made. */
static void drop_sets(void) {
    if (!own) return;
    for (int i = 0; i < MOST_GROUPS && own->generation == atomic_load(&kl_generation); i++)
        drop_set(&own->sets[i]);
    if (own) forget_sets(own);
}

void kl_regions_end(void) {
    CALL(PAPI_hl_stop);
    if (!own) return;
    drop_sets();
    lock_regions();
    own->has_ended = 1;
    own = NULL;
    unlock_regions();
}

/* The sets of the calling thread, one for each group. An event has another code in another library.
 * A handler of a signal may have jumped out of this before. */
static int make_sets(void) {
    for (int i = own->set_count; i < counted.group_count; i++) {
        drop_set(&own->sets[i]);
        int code = kl_make_region_set(counted.groups[i].component, &own->sets[i]);
        for (int e = 0; code == PAPI_OK && e < counted.event_count; e++)
            if (counted.events[e].group == i)
                code = PAPI_add_named_event(own->sets[i], counted.events[e].name);
        if (code != PAPI_OK) return code;
        own->set_count = i + 1;
    }
    return PAPI_OK;
}

static int is_running(int set) {
    int state = 0;
    return PAPI_state(set, &state) == PAPI_OK && state & PAPI_RUNNING;
}

static int start_sets(void) {
    for (int i = 0; !own->runs && i < counted.group_count; i++) {
        int code = is_running(own->sets[i]) ? PAPI_OK : PAPI_start(own->sets[i]);
        if (code != PAPI_OK) return code;
    }
    own->runs = 1;
    return PAPI_OK;
}

/* The values now. Those of sets that were stopped are those of the stop. */
static int read_values(long long *values) {
    long long *at = values + FIXED_VALUES;
    if (!has_sets()) return kl_is_open() ? PAPI_ENOEVST : PAPI_ENOINIT;
    for (int i = 0; i < counted.group_count; i++) {
        int code = PAPI_read(own->sets[i], at);
        if (code != PAPI_OK) return code;
        at += counted.groups[i].count;
    }
    values[0] = PAPI_get_real_cyc();
    values[1] = PAPI_get_real_nsec();
    return PAPI_OK;
}

/* The values since a region began, but of an event of the instant the value itself. */
static void count(const region *r, const long long *now, long long *since) {
    for (int i = 0; i < kl_value_count(&counted); i++)
        since[i] = i >= FIXED_VALUES && counted.events[i - FIXED_VALUES].is_instant
                       ? now[i]
                       : now[i] - r->values[i];
}

/* A new region, inside the one that is open. Under the lock. */
static int open_region(const char *name, const long long *now) {
    if (own->depth == MOST_NESTED) return PAPI_ENOMEM;
    size_t values = (size_t)kl_value_count(&counted) * sizeof *now, length = strlen(name) + 1;
    region *r = malloc(sizeof *r + 2 * values + length);
    if (!r) return PAPI_ENOMEM;
    memset(r, 0, sizeof *r + 2 * values);
    memcpy(r->values, now, values);
    memcpy((char *)r->values + 2 * values, name, length);
    r->id = own->begun++;
    r->parent = own->depth ? own->open[own->depth - 1]->id : -1;
    if (own->last) own->last->next = r;
    else own->first = r;
    own->last = own->open[own->depth++] = r;
    return PAPI_OK;
}

/* One more reading of a region. */
static int add_reading(region *r, const long long *now) {
    size_t values = (size_t)kl_value_count(&counted);
    if (r->read_count == r->read_room) {
        int room = r->read_room ? 2 * r->read_room : 4;
        void *reads = realloc(r->reads, (size_t)room * values * sizeof *r->reads);
        if (!reads) return PAPI_ENOMEM;
        r->reads = reads;
        r->read_room = room;
    }
    count(r, now, r->reads + (size_t)r->read_count++ * values);
    return PAPI_OK;
}

/* The innermost open region, where it has this name. */
static region *open_region_of(const char *name) {
    region *r = own->depth ? own->open[own->depth - 1] : NULL;
    return r && !strcmp(kl_region_name(&counted, r), name) ? r : NULL;
}

/* After a failure nothing more is counted or written. Each thread ends its sets at its next
 * call. */
static int fail(int code) {
    kl_region_say("Error: ", PAPI_strerror(code) ? PAPI_strerror(code) : "");
    atomic_store(&regions.has_failed, 1);
    drop_sets();
    return code;
}

static int has_failed(void) {
    const int failed = atomic_load(&regions.has_failed);
    if (failed) drop_sets();
    return failed;
}

/* What the calling thread needs before its regions. The library is opened and the thread named
 * before the lock is taken, so that no function of the user is called under it. */
static int prepare(void) {
    if (has_failed()) return PAPI_EMISC;
    int code = kl_begin_library();
    thread_state *t = code == PAPI_OK ? kl_current_thread(&code) : NULL;
    if (!t) return code;
    lock_regions();
    code = begin_regions();
    if (code == PAPI_OK) code = begin_thread(t->number);
    unlock_regions();
    if (code == PAPI_OK) take_library(t->generation);
    if (code == PAPI_OK) code = make_sets();
    if (code == PAPI_OK) code = start_sets();
    return code;
}

static int begin_region(const char *name) {
    long long now[MOST_VALUES];
    int code = prepare();
    if (code == PAPI_EMISC) return code;
    if (code == PAPI_OK && own->depth == MOST_NESTED) code = PAPI_ENOMEM;
    if (code == PAPI_OK) code = read_values(now);
    if (code == PAPI_OK) {
        lock_regions();
        code = open_region(name, now);
        unlock_regions();
    }
    return code == PAPI_OK ? PAPI_OK : fail(code);
}

int PAPI_hl_region_begin(const char *name) {
    CALL(PAPI_hl_region_begin);
    NO_CANCELLATION;
    if (!name) RETURN(PAPI_EINVAL);
    int code = kl_rate_runs() ? PAPI_rate_stop() : PAPI_OK;
    RETURN(code == PAPI_OK ? begin_region(name) : code);
}

/* Notes the values of the innermost region: those of a reading, or where it ends. A handler that
 * was called meanwhile may have ended it. Under the lock. */
static int note_values(const char *name, const long long *now, int ends) {
    region *r = own ? open_region_of(name) : NULL;
    if (!r) return ends ? PAPI_EINVAL : PAPI_OK;
    if (!ends) return add_reading(r, now);
    count(r, now, r->values + kl_value_count(&counted));
    own->depth--;
    own->ended++;
    return PAPI_OK;
}

/* Reads for the innermost region, and ends it or not. */
static int read_region(const char *name, int ends) {
    long long now[MOST_VALUES];
    if (!name) return PAPI_EINVAL;
    if (has_failed() || !own || !own->begun) return PAPI_EMISC;
    if (!open_region_of(name)) {
        kl_region_say("Warning: no open region ", name);
        return ends ? fail(PAPI_EINVAL) : PAPI_OK;
    }
    int code = read_values(now);
    if (code != PAPI_OK) return fail(code);
    lock_regions();
    code = note_values(name, now, ends);
    unlock_regions();
    return code == PAPI_EINVAL ? fail(code) : code;
}

int PAPI_hl_read(const char *name) {
    CALL(PAPI_hl_read);
    NO_CANCELLATION;
    RETURN(read_region(name, 0));
}

int PAPI_hl_region_end(const char *name) {
    CALL(PAPI_hl_region_end);
    NO_CANCELLATION;
    RETURN(read_region(name, 1));
}

int kl_high_level_runs(void) { return has_sets() && own->runs; }

int PAPI_hl_stop(void) {
    CALL(PAPI_hl_stop);
    long long values[MOST_VALUES];
    if (!kl_high_level_runs()) RETURN(PAPI_ENOEVNT);
    for (int i = 0; i < counted.group_count; i++) {
        int code = PAPI_stop(own->sets[i], values);
        if (code != PAPI_OK && code != PAPI_ENOTRUN) RETURN(code);
    }
    own->runs = 0;
    return PAPI_OK;
}
