/* Asks Linux's own scheduler of events which sets of events a processor counts at once, and where.
 *
 * What decides is the kernel's source: checks/linux_scheduler.py takes the functions, tables and
 * macros by their names out of arch/x86, and puts them into the parts that are included below. Here
 * stand only the types and calls that these need, as far as events that count and do not sample
 * reach them. */
#include <errno.h>
#include <linux/perf_event.h>
#include <stdbool.h>
#include <stddef.h>
#include <stdio.h>
#include <stdlib.h>
#include <string.h>

typedef unsigned char u8;
typedef unsigned short u16;
typedef unsigned int u32;
typedef unsigned long long u64;
typedef long long s64;
typedef int raw_spinlock_t;
typedef int cpumask_t;
typedef struct { int counter; } atomic_t;
struct static_key_false { int unused; };

/* -- what the kernel's language has -- */

#define BIT_ULL(n) (1ULL << (n))
#define BITS_PER_LONG 64
#define BITS_TO_LONGS(n) (((n) + BITS_PER_LONG - 1) / BITS_PER_LONG)
#define HWEIGHT(n) __builtin_popcountll(n)
#define hweight64(n) __builtin_popcountll(n)
#define min(a, b) ((a) < (b) ? (a) : (b))
#define max(a, b) ((a) > (b) ? (a) : (b))
#define typeof __typeof__
#define container_of(pointer, type, member) ((type *)((char *)(pointer) - offsetof(type, member)))
#define unlikely(x) (x)
#define fallthrough __attribute__((fallthrough))
#define READ_ONCE(x) (x)
#define WRITE_ONCE(x, value) ((x) = (value))
#define WARN(condition, ...) (condition)
#define WARN_ON(condition) warn_on((condition) != 0, #condition)
#define WARN_ON_ONCE(condition) WARN_ON(condition)
#define KERN_ERR ""
#define EXPORT_SYMBOL_GPL(name)
#define subsys_initcall(name)
#define pr_info(...) ((void)0)
#define pr_cont(...) ((void)0)
#define __init
#define __initdata
#define __initconst
#define __read_mostly
#define raw_spin_lock(lock) ((void)(lock))
#define raw_spin_unlock(lock) ((void)(lock))
#define raw_spin_lock_irqsave(lock, flags) ((void)(flags = 0))
#define raw_spin_unlock_irqrestore(lock, flags) ((void)(flags))
#define lockdep_assert_held(lock) ((void)0)
#define atomic_read(a) ((a)->counter)
#define atomic_inc(a) ((void)(a)->counter++)
#define atomic_dec(a) ((void)(a)->counter--)
#define static_branch_unlikely(key) 0
#define static_call(name) (name##_called)
#define static_call_cond(name) (name##_called)
#define local64_set(to, value) ((void)(to))
#define for_each_online_cpu(cpu) for ((cpu) = 0; (cpu) < 0;)
#define for_each_set_bit(bit, mask, size) \
    for ((bit) = next_bit(mask, size, 0); (bit) < (size); (bit) = next_bit(mask, size, (bit) + 1))
#define for_each_set_bit_from(bit, mask, size) \
    for ((bit) = next_bit(mask, size, bit); (bit) < (size); (bit) = next_bit(mask, size, (bit) + 1))
#define bitmap_copy(to, from, bits) memcpy(to, from, sizeof(unsigned long) * BITS_TO_LONGS(bits))

static bool warn_on(bool is_so, const char *condition) {
    if (is_so) fprintf(stderr, "linux_scheduler: the kernel warns of: %s\n", condition), exit(2);
    return is_so;
}

static bool test_bit(int bit, const unsigned long *mask) {
    return mask[bit / BITS_PER_LONG] >> bit % BITS_PER_LONG & 1;
}
static void __clear_bit(int bit, unsigned long *mask) {
    mask[bit / BITS_PER_LONG] &= ~(1UL << bit % BITS_PER_LONG);
}

static int next_bit(const unsigned long *mask, int size, int from) {
    while (from < size && !test_bit(from, mask)) from++;
    return from;
}

/* -- types of perf that events which count reach -- */

struct perf_event;
struct pmu { unsigned type, capabilities; };
struct perf_branch_stack { u64 nr; };
struct perf_guest_switch_msr { unsigned msr; };
struct hw_perf_event_extra { u64 config; unsigned reg; int alloc, idx; };
struct hw_perf_event {
    u64 config, sample_period, last_period, period_left;
    int idx, flags;
    struct hw_perf_event_extra extra_reg, branch_reg;
};
struct perf_event {
    struct perf_event_attr attr;
    struct hw_perf_event hw;
    struct pmu *pmu;
    struct perf_event *group_leader;
    unsigned attach_state, event_caps;
    void (*destroy)(struct perf_event *);
};

enum {
    PERF_ATTACH_TASK_DATA = 8,
    PERF_ATTACH_SCHED_CB = 32,
    PERF_EV_CAP_SIBLING = 4,
    PERF_PMU_CAP_EXTENDED_REGS = 64
};
enum { PERF_PMU_TXN_ADD = 1, PERF_REG_EXTENDED_MASK = 0, PERF_EVENT_FLAG_ARCH = 0xfffff };
enum {
    MSR_OFFCORE_RSP_0 = 0x1a6,
    MSR_OFFCORE_RSP_1 = 0x1a7,
    MSR_PEBS_LD_LAT_THRESHOLD = 0x3f6,
    MSR_PEBS_FRONTEND = 0x3f7,
    PERF_CAP_METRICS_IDX = 15
};
enum { X86_FEATURE_RTM, X86_FEATURE_HLE };
#define MAX_PEBS_EVENTS 8


static struct pmu pmu = {.type = PERF_TYPE_RAW};
static struct { unsigned x86, x86_model; } boot_cpu_data;
static bool has_two_threads;

static bool boot_cpu_has(int feature) { return (void)feature, false; }
static int topology_max_smt_threads(void) { return has_two_threads ? 2 : 1; }
static void cpus_read_lock(void) {}
static void cpus_read_unlock(void) {}
static void hardlockup_detector_perf_stop(void) {}
static void hardlockup_detector_perf_restart(void) {}
#define free_excl_cntrs(cpuc) ((void)0)

static bool is_sampling_event(const struct perf_event *event) {
    return event->attr.sample_period != 0;
}
static bool has_branch_stack(const struct perf_event *event) {
    return event->attr.branch_sample_type != 0;
}
static bool needs_branch_stack(const struct perf_event *event) { return has_branch_stack(event); }
static int perf_allow_cpu(const struct perf_event_attr *attr) { return (void)attr, 0; }
static unsigned get_ibs_caps(void) { return 0; }
/* What only samples reach ends the program, so that nothing is decided here. */
static long not_of_counting(void) {
    return fprintf(stderr, "linux_scheduler: an event does not count\n"), exit(2), 0;
}
static int amd_pmu_branch_hw_config_called(struct perf_event *event) {
    return (void)event, (int)not_of_counting();
}
#define x86_pmu_max_precise() ((int)not_of_counting())
#define precise_br_compat(event) (not_of_counting() != 0)
#define forward_event_to_ibs(event) ((int)not_of_counting())
#define intel_pmu_freq_start_period(event) ((u64)not_of_counting())
#define intel_pmu_large_pebs_flags(event) ((unsigned long)not_of_counting())
#define intel_pmu_setup_lbr_filter(event) ((int)not_of_counting())
#define x86_add_exclusive(what) ((int)not_of_counting())
#define set_ext_hw_attr(hwc, event) ((int)not_of_counting())
#define hw_perf_lbr_event_destroy NULL
#define event_is_checkpointed(event) false
#define array_index_nospec(index, size) (index)
#define for_each_sibling_event(sibling, leader) for ((sibling) = (leader); 0;)
#define list_entry_is_head(sibling, list, member) (not_of_counting() != 0)

/* Of arch/x86/include/asm/perf_event.h, intel-family.h and arch/x86/events/perf_event.h. */
#include "types.inc"

static struct x86_pmu x86_pmu;
struct event_constraint emptyconstraint, unconstrained;
static struct event_constraint bts_constraint =
    EVENT_CONSTRAINT(0, 1ULL << INTEL_PMC_IDX_FIXED_BTS, 0);
/* It matches no event of libpfm4: code 0x1b00 with a fixed counter for guests. */
static struct event_constraint vlbr_constraint =
    __EVENT_CONSTRAINT(INTEL_FIXED_VLBR_EVENT, (1ULL << INTEL_PMC_IDX_FIXED_VLBR),
                       FIXED_EVENT_FLAGS, 1, 0, PERF_X86_EVENT_LBR_SELECT);
static bool is_x86_event(const struct perf_event *event) { return event->pmu == &pmu; }
/* Of events that are sampled precisely; the events here are not (arch/x86/events/intel/ds.c looks
 * at that first). */
static struct event_constraint *intel_pebs_constraints(struct perf_event *event) {
    return event->attr.precise_ip ? (not_of_counting(), NULL) : NULL;
}
static bool check_msr(unsigned msr, u64 mask) { return (void)msr, (void)mask, true; }

static struct event_constraint *x86_pmu_get_event_constraints_called(struct cpu_hw_events *cpuc,
                                                                     int index,
                                                                     struct perf_event *event) {
    return x86_pmu.get_event_constraints(cpuc, index, event);
}
static void x86_pmu_put_event_constraints_called(struct cpu_hw_events *cpuc,
                                                 struct perf_event *event) {
    if (x86_pmu.put_event_constraints) x86_pmu.put_event_constraints(cpuc, event);
}
static void x86_pmu_start_scheduling_called(struct cpu_hw_events *cpuc) {
    if (x86_pmu.start_scheduling) x86_pmu.start_scheduling(cpuc);
}
static void x86_pmu_commit_scheduling_called(struct cpu_hw_events *cpuc, int index, int counter) {
    if (x86_pmu.commit_scheduling) x86_pmu.commit_scheduling(cpuc, index, counter);
}
static void x86_pmu_stop_scheduling_called(struct cpu_hw_events *cpuc) {
    if (x86_pmu.stop_scheduling) x86_pmu.stop_scheduling(cpuc);
}

#include "code.inc" /* of arch/x86/events/core.c, intel/core.c and amd/core.c */

/* -- a processor -- */

static void run_quirks(void) {
    for (struct x86_pmu_quirk *quirk = x86_pmu.quirks; quirk; quirk = quirk->next) quirk->func();
    fixup_ht_bug();
}

static void begin_intel(int counters, int fixed) {
    x86_pmu = intel_pmu;
    x86_pmu.version = fixed > 3 ? 5 : 3;
    x86_pmu.num_counters = counters;
    x86_pmu.num_counters_fixed = fixed;
    x86_pmu.intel_cap.perf_metrics = fixed > 3;
    choose_model();
    intel_pmu_check_num_counters(&x86_pmu.num_counters, &x86_pmu.num_counters_fixed,
                                 &x86_pmu.intel_ctrl, (1ULL << fixed) - 1);
    intel_pmu_check_event_constraints(x86_pmu.event_constraints, x86_pmu.num_counters,
                                      x86_pmu.num_counters_fixed, x86_pmu.intel_ctrl);
    intel_pmu_check_extra_regs(x86_pmu.extra_regs);
}

static void begin_amd(int counters) {
    x86_pmu = amd_pmu;
    x86_pmu.num_counters = counters;
    choose_family();
}

static void begin(int counters) {
    unconstrained =
        (struct event_constraint)__EVENT_CONSTRAINT(0, (1ULL << counters) - 1, 0, counters, 0, 0);
    x86_pmu.max_period = 1ULL << 31;
    run_quirks();
}

/* As intel_cpuc_prepare makes it for a core of which nothing else runs. */
static struct cpu_hw_events *new_core(void) {
    struct cpu_hw_events *core = calloc(1, sizeof *core);
    core->pmu = &pmu;
    core->shared_regs = calloc(1, sizeof *core->shared_regs);
    if (x86_pmu.flags & PMU_FL_EXCL_CNTRS) {
        core->excl_cntrs = calloc(1, sizeof *core->excl_cntrs);
        core->constraint_list = calloc(X86_PMC_IDX_MAX, sizeof *core->constraint_list);
    }
    return core;
}

static void delete_core(struct cpu_hw_events *core) {
    free(core->shared_regs), free(core->excl_cntrs), free(core->constraint_list), free(core);
}

/* -- a set -- */

#define MOST_EVENTS 64

static int open_event(struct perf_event *event, struct perf_event *leader, u64 config,
                      u64 register_value) {
    memset(event, 0, sizeof *event);
    event->attr.type = PERF_TYPE_RAW;
    event->attr.exclude_user = !(config & ARCH_PERFMON_EVENTSEL_USR);
    event->attr.exclude_kernel = !(config & ARCH_PERFMON_EVENTSEL_OS);
    event->attr.config =
        config & (X86_RAW_EVENT_MASK | ARCH_PERFMON_EVENTSEL_ANY | AMD64_EVENTSEL_EVENT);
    event->attr.config1 = register_value;
    event->pmu = &pmu;
    event->group_leader = leader;
    event->hw.idx = -1;
    event->hw.extra_reg.idx = event->hw.branch_reg.idx = EXTRA_REG_NONE;
    return x86_pmu.hw_config(event);
}

/* `CODE:REGISTER` for each event, the first of which leads the others as PAPI opens them. The
 * answer is the counters, those from 32 on being fixed. */
static void answer(char *line, const u64 *held) {
    static struct perf_event events[MOST_EVENTS];
    struct cpu_hw_events *core = new_core();
    int assigned[MOST_EVENTS], count = 0, most = x86_pmu.num_counters + x86_pmu.num_counters_fixed;
    bool fits = true;
    if (held && (open_event(events, events, *held, 0) || collect_event(core, events, most, 0)))
        exit(2);
    int first = held != NULL;
    count = first;
    for (char *word = strtok(line, " \n"); word && fits; word = strtok(NULL, " \n"), count++) {
        char *end;
        u64 config = strtoull(word, &end, 16),
            value = *end == ':' ? strtoull(end + 1, NULL, 16) : 0;
        fits = count < MOST_EVENTS && !open_event(events + count, events + first, config, value) &&
               !collect_event(core, events + count, most, count);
    }
    if (fits) fits = !x86_schedule_events(core, count, assigned);
    for (int i = first; fits && i < count; i++) printf("%s%d", i > first ? " " : "", assigned[i]);
    puts(fits ? "" : "-");
    delete_core(core);
}

/* FAMILY MODEL COUNTERS FIXED THREADS [HELD]: family and model in hexadecimal digits, threads of a
 * core, the code of an event that the kernel's watchdog counts. */
int main(int count, char **words) {
    static char line[1 << 16];
    if (count < 6) return 2;
    boot_cpu_data.x86 = (unsigned)strtoul(words[1], NULL, 16);
    boot_cpu_data.x86_model = (unsigned)strtoul(words[2], NULL, 16);
    has_two_threads = atoi(words[5]) > 1;
    u64 held = count > 6 ? strtoull(words[6], NULL, 16) : 0;
    if (boot_cpu_data.x86 == 6) begin_intel(atoi(words[3]), atoi(words[4]));
    else begin_amd(atoi(words[3]));
    begin(atoi(words[3]));
    while (fgets(line, sizeof line, stdin)) answer(line, count > 6 ? &held : NULL);
    return 0;
}
