/* Each allocation of a program that makes PAPI's calls is refused in turn: that call answers
 * PAPI_ENOMEM, the same call then answers as it does with ample memory, and after PAPI_shutdown
 * nothing is left. */
#include "papi.h"
#include "refusing.h"
#include "wanted.h"
#include <pthread.h>
#include <stdlib.h>
#include <string.h>
#include <sys/wait.h>
#include <unistd.h>

#define IS_REFUSED 2

/* Makes a call, and once more if an allocation was refused in it. */
#define MADE(call, wanted) do { \
    long before_ = refusals, answer_ = (call); \
    if (refusals != before_) { WANT(answer_, PAPI_ENOMEM); answer_ = (call); } \
    WANT(answer_, wanted); \
} while (0)

static int told;

static void handler(int set, void *address, long long vector, void *context) {
    (void)set; (void)address; (void)vector; (void)context;
    told++;
}

static unsigned long own_id(void) { return (unsigned long)pthread_self(); }

/* A number of occurrences happen, those of a call that was refused memory among them. */
static void go(uint32_t n) {
    uint32_t went;
    for (; n > 0; n -= went) {
        long before = refusals, answer = kistalub_go(n, &went);
        WANT(answer, refusals != before ? PAPI_ENOMEM : PAPI_OK);
        if (answer == PAPI_OK) WANT(went, n);
    }
}

static void *in_a_thread(void *unused) {
    int set = PAPI_NULL;
    long long count;
    MADE(PAPI_register_thread(), PAPI_OK);
    MADE(PAPI_create_eventset(&set), PAPI_OK);
    MADE(PAPI_add_named_event(set, "PAPI_TOT_INS"), PAPI_OK);
    MADE(PAPI_start(set), PAPI_OK);
    go(8);
    MADE(PAPI_stop(set, &count), PAPI_OK);
    WANT(count, 2040);
    MADE(PAPI_unregister_thread(), PAPI_OK);
    return unused;
}

static void events(void) {
    int event = PAPI_PRESET_MASK, own;
    static PAPI_event_info_t info;
    char name[PAPI_MAX_STR_LEN];
    MADE(PAPI_enum_event(&event, PAPI_ENUM_FIRST), PAPI_OK);
    WANT(event, PAPI_L1_DCM);
    MADE(PAPI_enum_event(&event, PAPI_PRESET_ENUM_AVAIL), PAPI_OK);
    WANT(event, PAPI_TOT_INS);
    MADE(PAPI_enum_event(&event, PAPI_PRESET_ENUM_AVAIL), PAPI_ENOEVNT);
    MADE(PAPI_event_name_to_code("STALL2", &own), PAPI_OK);
    event = PAPI_UE_MASK;
    MADE(PAPI_enum_event(&event, PAPI_ENUM_FIRST), PAPI_OK);
    WANT(event, own);
    MADE(PAPI_get_event_info(own, &info), PAPI_OK);
    WANT(strcmp(info.derived, "DERIVED_POSTFIX"), 0);
    WANT(strcmp(info.postfix, "N0|N1|-|2|*|"), 0);
    WANT(info.count, 2);
    WANT(strcmp(info.name[1], "lab::INST_RETIRED"), 0);
    MADE(PAPI_enum_event(&event, PAPI_PRESET_ENUM_AVAIL), PAPI_ENOEVNT);
    event = PAPI_NATIVE_MASK;
    MADE(PAPI_enum_event(&event, PAPI_ENUM_FIRST), PAPI_OK);
    MADE(PAPI_enum_event(&event, PAPI_ENUM_EVENTS), PAPI_OK);
    MADE(PAPI_event_code_to_name(event, name), PAPI_OK);
    WANT(strcmp(name, "lab::CYCLES"), 0);
    MADE(PAPI_query_named_event("MISSES"), PAPI_ENOEVNT);
    MADE(PAPI_num_components(), 2);
}

static void life(void) {
    int set = PAPI_NULL, other = PAPI_NULL, event, status, listed[2], number = 2;
    long long counts[2], sums[2] = { 1, 1 };
    unsigned buckets[2] = { 0, 0 };
    pthread_t thread;
    PAPI_option_t option;
    MADE(PAPI_library_init(PAPI_VER_CURRENT), PAPI_VER_CURRENT);
    MADE(PAPI_thread_init(own_id), PAPI_OK);
    events();
    MADE(PAPI_create_eventset(&set), PAPI_OK);
    MADE(PAPI_set_domain(PAPI_DOM_ALL), PAPI_OK);
    MADE(PAPI_create_eventset(&other), PAPI_OK);
    MADE(PAPI_add_named_event(set, "INST_RETIRED"), PAPI_OK);
    MADE(PAPI_add_named_event(set, "INST_RETIRED"), PAPI_EINVAL);
    MADE(PAPI_add_named_event(set, "STALL2"), PAPI_OK);
    MADE(PAPI_add_named_event(other, "BR_INST"), PAPI_OK);
    MADE(PAPI_add_named_event(other, "BR_MISP"), PAPI_ECNFLCT);
    MADE(PAPI_event_name_to_code("INST_RETIRED", &event), PAPI_OK);
    MADE(PAPI_overflow(set, event, 1000, 0, handler), PAPI_OK);
    MADE(PAPI_start(set), PAPI_OK);
    MADE(PAPI_start(other), PAPI_EISRUN);
    told = 0;
    go(4);
    MADE(PAPI_accum(set, sums), PAPI_OK);
    WANT(sums[0], 1021);
    WANT(sums[1], 1 - 2040);
    go(4);
    MADE(PAPI_read(set, counts), PAPI_OK);
    WANT(counts[0], 1020);
    MADE(PAPI_state(set, &status), PAPI_OK);
    WANT(status, PAPI_RUNNING | PAPI_OVERFLOWING);
    MADE(PAPI_stop(set, counts), PAPI_OK);
    WANT(counts[1], -2040);
    WANT(told, 2);
    MADE(PAPI_profil(buckets, sizeof buckets, 0, 2, set, event, 256, PAPI_PROFIL_BUCKET_32),
         PAPI_OK);
    MADE(PAPI_list_events(set, listed, &number), PAPI_OK);
    WANT(listed[0], event);
    option.multiplex.eventset = other;
    option.multiplex.ns = 2;
    MADE(PAPI_set_opt(PAPI_MULTIPLEX, &option), PAPI_OK);
    MADE(PAPI_add_named_event(other, "BR_MISP"), PAPI_OK);
    MADE(PAPI_start(other), PAPI_OK);
    MADE(PAPI_stop(other, counts), PAPI_OK);
    MADE(PAPI_remove_event(set, event), PAPI_OK);
    MADE(PAPI_num_events(set), 1);
    MADE(PAPI_cleanup_eventset(set), PAPI_OK);
    MADE(PAPI_destroy_eventset(&set), PAPI_OK);
    WANT(pthread_create(&thread, NULL, in_a_thread, NULL), 0);
    WANT(pthread_join(thread, NULL), 0);
    PAPI_shutdown();
}

/* The same with steps, which take no memory. */
static void steps(void) {
    int set = PAPI_NULL;
    long long count;
    setenv("KISTALUB_STEP", "4", 1);
    MADE(PAPI_library_init(PAPI_VER_CURRENT), PAPI_VER_CURRENT);
    MADE(PAPI_create_eventset(&set), PAPI_OK);
    MADE(PAPI_add_named_event(set, "PAPI_TOT_INS"), PAPI_OK);
    MADE(PAPI_start(set), PAPI_OK);
    MADE(PAPI_read(set, &count), PAPI_OK);
    WANT(count, 1020);
    MADE(PAPI_stop(set, &count), PAPI_OK);
    WANT(count, 2040);
    PAPI_shutdown();
    unsetenv("KISTALUB_STEP");
}

/* Lives with each allocation refused in turn, until one has none that is. */
static int each_refused(void (*lives)(void)) {
    long k = 0, before, first = refusals;
    do {
        before = refusals;
        left = k++;
        lives();
        left = -1;
        if (live) { printf("after allocation %ld was refused, %ld are left\n", k, live); return 0; }
    } while (refusals != before);
    return refusals - first == k - 1 && refusals > first;
}

/* Without a library no call takes memory. */
static void no_library(void) {
    int set = PAPI_NULL;
    long long count;
    left = 0;
    WANT(PAPI_get_real_cyc() + PAPI_get_virt_usec(), 0);
    WANT(PAPI_create_eventset(&set), PAPI_ENOINIT);
    WANT(PAPI_read(0, &count), PAPI_ENOINIT);
    WANT(PAPI_num_components(), PAPI_ENOINIT);
    WANT(PAPI_register_thread(), PAPI_ENOINIT);
    WANT(left, 0);
    left = -1;
}

/* A reading of a region that is refused memory is not made, and the next one is. */
static void reads_a_region(void) {
    setenv("PAPI_EVENTS", "INST_RETIRED", 1);
    setenv("PAPI_OUTPUT_DIRECTORY", "/dev/null/none", 1);
    WANT(PAPI_hl_region_begin("region"), PAPI_OK);
    left = 0;
    WANT(PAPI_hl_read("region"), PAPI_ENOMEM);
    WANT(PAPI_hl_read("region"), PAPI_OK);
    WANT(PAPI_hl_region_end("region"), PAPI_OK);
    PAPI_shutdown();
}

/* The first region of a process, in which an allocation is refused. It fails then, and with it each
 * further call for a region. */
static int begins_a_region(long allocation) {
    long before = refusals;
    WANT(freopen("/dev/null", "w", stderr) != NULL, 1);
    left = allocation;
    int code = PAPI_hl_region_begin("region"), is_refused = refusals != before;
    left = -1;
    WANT(code, is_refused ? PAPI_ENOMEM : PAPI_OK);
    WANT(PAPI_hl_region_end("region"), is_refused ? PAPI_EMISC : PAPI_OK);
    PAPI_shutdown();
    return is_refused;
}

/* Each allocation of it refused in turn, until one has none that is. Each is a process of its
 * own. */
static int each_refused_to_a_region(void) {
    int status, is_refused = 1;
    long k = 0;
    setenv("PAPI_EVENTS", "INST_RETIRED,PACKETS", 1); /* of two components */
    setenv("PAPI_OUTPUT_DIRECTORY", "/dev/null/none", 1);
    fflush(stdout);
    for (; is_refused; k++) {
        pid_t child = fork();
        if (child == 0) exit(begins_a_region(k) ? IS_REFUSED : 0);
        WANT(waitpid(child, &status, 0), child);
        WANT(WIFEXITED(status) && (WEXITSTATUS(status) == 0 || WEXITSTATUS(status) == IS_REFUSED),
             1);
        is_refused = WEXITSTATUS(status) == IS_REFUSED;
    }
    return k > 1;
}

int main(void) {
    no_library();
    int all = each_refused_to_a_region() && each_refused(life) && each_refused(steps);
    reads_a_region();
    printf("each allocation refused once, and nothing is left: %s\n", all ? "yes" : "no");
    return !all;
}
