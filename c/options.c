/* Options, domains, granularities and multiplexing: PAPI_set_opt(3), PAPI_get_opt(3). */
#include "posix.h"
#include "calls.h"
#include "clock.h"
#include "environment.h"
#include "errors.h"
#include "limits.h"
#include "locks.h"
#include "options.h"
#include "papi.h"
#include "process.h"
#include "sets.h"
#include "thread.h"

#include <pthread.h>
#include <stdatomic.h>
#include <stdint.h>
#include <stdio.h>
#include <string.h>

#define USUAL_SLICE 100

static const int available_domains = PAPI_DOM_USER | PAPI_DOM_KERNEL;

/* What happens before each call that reads. */
atomic_uint kl_step;

/* The settings of the process. */
static struct {
    /* Of a multiplexed set in ticks: the one that is set, and that of the environment. */
    atomic_uint slice, usual_slice;
    /* Of the sets that are made from now on, or bound to a component; 0 stands for
     * PAPI_DOM_USER. */
    atomic_int domains[MOST_COMPONENTS];
    /* What PAPI_DEF_ITIMER was given: no timer runs here; under kl_lock. */
    PAPI_itimer_option_t timer;
} settings = { .slice = USUAL_SLICE, .usual_slice = USUAL_SLICE };

int kl_default_domain(uint32_t component) {
    int domain = component < MOST_COMPONENTS ? atomic_load(&settings.domains[component]) : 0;
    return domain ? domain : PAPI_DOM_USER;
}

int kl_options_begin(void) {
    uint32_t step = 0, slice = USUAL_SLICE;
    int code = kl_number_named("KISTALUB_STEP", 0, UINT32_MAX, &step);
    if (code == PAPI_OK) code = kl_number_named("KISTALUB_SLICE", 1, LONGEST_SLICE, &slice);
    atomic_store(&kl_step, step);
    atomic_store(&settings.slice, slice);
    atomic_store(&settings.usual_slice, slice);
    for (int i = 0; i < MOST_COMPONENTS; i++) atomic_store(&settings.domains[i], 0);
    pthread_mutex_lock(&kl_lock);
    memset(&settings.timer, 0, sizeof settings.timer);
    pthread_mutex_unlock(&kl_lock);
    return code;
}

/* PAPI_ENOCMP if the unit has no such component. */
static int check_component(thread_state *t, int component) {
    int counters =
        component < 0 ? PAPI_ENOCMP : kistalub_counters(&t->library, (uint32_t)component);
    return counters < 0 ? counters : PAPI_OK;
}

static int set_default_domain(thread_state *t, const PAPI_domain_option_t *o) {
    int domain = o->domain, code = PAPI_EINVAL;
    if (domain >= PAPI_DOM_MIN && domain <= PAPI_DOM_MAX) code = check_component(t, o->def_cidx);
    if (code != PAPI_OK) return code;
    if (domain == PAPI_DOM_ALL) domain = available_domains;
    if (domain & ~available_domains || o->def_cidx >= MOST_COMPONENTS) return PAPI_ENOSUPP;
    atomic_store(&settings.domains[o->def_cidx], domain);
    return PAPI_OK;
}

static int set_set_domain(thread_state *t, const PAPI_domain_option_t *o) {
    int domain = o->domain;
    if (domain < PAPI_DOM_MIN || domain > PAPI_DOM_MAX) return PAPI_EINVAL_DOM;
    int code = kl_is_stopped(t, o->eventset);
    if (code == PAPI_ENOEVST) return code;
    if (domain == PAPI_DOM_ALL) domain = available_domains;
    if (domain & ~available_domains) return PAPI_EINVAL_DOM;
    return code == PAPI_OK ? kl_set_domain(t, o->eventset, domain) : code;
}

/* The counters are each thread's own. */
static int check_granularity(int granularity) {
    return granularity == PAPI_GRN_THR ? PAPI_OK : PAPI_EINVAL;
}

static int set_default_granularity(thread_state *t, const PAPI_granularity_option_t *o) {
    if (o->granularity < PAPI_GRN_MIN || o->granularity > PAPI_GRN_MAX) return PAPI_EINVAL;
    int code = check_component(t, o->def_cidx);
    return code == PAPI_OK ? check_granularity(o->granularity) : code;
}

static int set_set_granularity(thread_state *t, const PAPI_granularity_option_t *o) {
    if (o->granularity < PAPI_GRN_MIN || o->granularity > PAPI_GRN_MAX) return PAPI_EINVAL;
    return kl_is_stopped(t, o->eventset) == PAPI_ENOEVST ? PAPI_ENOEVST
                                                         : check_granularity(o->granularity);
}

/* Nanoseconds as ticks of the stream, of which each is a cycle: at least one, and at most the
 * longest slice. */
static uint32_t ticks_of(int ns) {
    uint64_t ticks = (uint64_t)ns * kl_mhz() / 1000;
    return ticks < 1 ? 1 : ticks > LONGEST_SLICE ? LONGEST_SLICE : (uint32_t)ticks;
}

/* And back: at least one nanosecond. */
static int nanoseconds_of(uint32_t ticks) {
    uint64_t ns = (uint64_t)ticks * 1000 / kl_mhz();
    return ns < 1 ? 1 : (int)ns;
}

/* Multiplexes a set. An interval of 0 is the usual slice. */
static int multiplex(thread_state *t, PAPI_multiplex_option_t *o) {
    uint32_t bits = 0;
    int code = kistalub_state(&t->library, kl_set_number(t, o->eventset), &bits);
    if (code != PAPI_OK) return code;
    if (bits & PAPI_RUNNING) return PAPI_EISRUN;
    if (bits & PAPI_MULTIPLEXING || o->ns < 0) return PAPI_EINVAL;
    uint32_t slice = o->ns ? ticks_of(o->ns) : atomic_load(&settings.slice);
    code = kistalub_set_multiplex(&t->library, kl_set_number(t, o->eventset), slice);
    if (code != PAPI_OK) return code;
    o->ns = nanoseconds_of(slice);
    kl_set *s = kl_set_of(t, o->eventset);
    s->multiplex_ns = o->ns;
    s->multiplex_flags = o->flags;
    return PAPI_OK;
}

/* Takes an interval for the sets that are multiplexed from now on, and says which one it has
 * become. 0 stands for that of the environment. */
static int set_default_slice(int *ns) {
    if (*ns < 0) return PAPI_EINVAL;
    uint32_t slice = *ns ? ticks_of(*ns) : atomic_load(&settings.usual_slice);
    atomic_store(&settings.slice, slice);
    *ns = nanoseconds_of(slice);
    return PAPI_OK;
}

/* A timer without an interval leaves that as it is. */
static int set_timer(PAPI_itimer_option_t *o) {
    int code = o->ns ? set_default_slice(&o->ns) : PAPI_OK;
    if (code != PAPI_OK) return code;
    pthread_mutex_lock(&kl_lock);
    settings.timer = *o;
    pthread_mutex_unlock(&kl_lock);
    return PAPI_OK;
}

static int set_option(thread_state *t, int option, PAPI_option_t *o) {
    switch (option) {
    case PAPI_DEFDOM: return set_default_domain(t, &o->defdomain);
    case PAPI_DOMAIN: return set_set_domain(t, &o->domain);
    case PAPI_DEFGRN: return set_default_granularity(t, &o->defgranularity);
    case PAPI_GRANUL: return set_set_granularity(t, &o->granularity);
    case PAPI_MULTIPLEX: return multiplex(t, &o->multiplex);
    case PAPI_DEF_MPX_NS: return set_default_slice(&o->multiplex.ns);
    case PAPI_DEF_ITIMER_NS: return set_default_slice(&o->itimer.ns);
    case PAPI_DEF_ITIMER: return set_timer(&o->itimer);
    case PAPI_INHERIT:
        return kl_is_stopped(t, o->inherit.eventset) == PAPI_ENOEVST ? PAPI_ENOEVST : PAPI_ECMP;
    case PAPI_ATTACH:
    case PAPI_DETACH:
    case PAPI_CPU_ATTACH:
    case PAPI_DATA_ADDRESS:
    case PAPI_INSTR_ADDRESS:
    case PAPI_USER_EVENTS_FILE: return PAPI_ENOSUPP;
    default: return PAPI_EINVAL;
    }
}

/* What the model has no meaning for answers PAPI_ENOSUPP, and what only PAPI_get_opt knows
 * PAPI_EINVAL. */
int PAPI_set_opt(int option, PAPI_option_t *o) {
    CALL(PAPI_set_opt);
    if (option == PAPI_DEBUG) RETURN(o ? kl_set_debug(&o->debug) : PAPI_EINVAL);
    HERE(t);
    RETURN(o ? set_option(t, option, o) : PAPI_EINVAL);
}

/* Whether the set is multiplexed. */
static int get_multiplex(thread_state *t, PAPI_multiplex_option_t *o) {
    uint32_t bits = 0;
    int code = kistalub_state(&t->library, kl_set_number(t, o->eventset), &bits);
    if (code != PAPI_OK) return code;
    const kl_set *s = kl_set_of(t, o->eventset);
    o->ns = s->multiplex_ns;
    o->flags = s->multiplex_flags;
    return (bits & PAPI_MULTIPLEXING) != 0;
}

static int get_timer(PAPI_itimer_option_t *o) {
    pthread_mutex_lock(&kl_lock);
    *o = settings.timer;
    pthread_mutex_unlock(&kl_lock);
    o->ns = nanoseconds_of(atomic_load(&settings.slice));
    o->flags = 0;
    return PAPI_OK;
}

/* How a library is loaded before others, as the linker of the system has it. */
static int get_preload(PAPI_preload_info_t *info) {
    memset(info, 0, sizeof *info);
    snprintf(info->lib_preload_env, sizeof info->lib_preload_env, "LD_PRELOAD");
    snprintf(info->lib_dir_env, sizeof info->lib_dir_env, "LD_LIBRARY_PATH");
    info->lib_preload_sep = ' ';
    info->lib_dir_sep = ':';
    return PAPI_OK;
}

static int get_domain(thread_state *t, PAPI_domain_option_t *o) {
    const kl_set *s = kl_set_of(t, o->eventset);
    if (!s) return PAPI_ENOEVST;
    o->domain = s->domain;
    return PAPI_OK;
}

/* What is the same for each set. */
static int get_of_set(thread_state *t, int set, int value, int *into) {
    int code = kl_is_stopped(t, set);
    if (code == PAPI_ENOEVST) return code;
    *into = value;
    return PAPI_OK;
}

/* What other calls tell, as they tell it. */
static int get_component(PAPI_option_t *o, int component) {
    o->cmp_info = (PAPI_component_info_t *)(uintptr_t)PAPI_get_component_info(component);
    return o->cmp_info ? PAPI_OK : PAPI_ENOCMP;
}

static int get_libraries(PAPI_option_t *o) {
    o->shlib_info = (PAPI_shlib_info_t *)(uintptr_t)PAPI_get_shared_lib_info();
    return o->shlib_info ? PAPI_OK : PAPI_ESYS;
}

static int get_executable(PAPI_option_t *o) {
    o->exe_info = (PAPI_exe_info_t *)(uintptr_t)PAPI_get_executable_info();
    return o->exe_info ? PAPI_OK : PAPI_ESYS;
}

static int get_hardware(PAPI_option_t *o) {
    o->hw_info = (PAPI_hw_info_t *)(uintptr_t)PAPI_get_hardware_info();
    return o->hw_info ? PAPI_OK : PAPI_ESYS;
}

static int get_option(thread_state *t, int option, PAPI_option_t *o) {
    switch (option) {
    case PAPI_MULTIPLEX: return get_multiplex(t, &o->multiplex);
    case PAPI_DEF_MPX_NS:
        o->multiplex.ns = nanoseconds_of(atomic_load(&settings.slice));
        return PAPI_OK;
    case PAPI_DEF_ITIMER_NS:
        o->itimer.ns = nanoseconds_of(atomic_load(&settings.slice));
        return PAPI_OK;
    case PAPI_DEF_ITIMER: return get_timer(&o->itimer);
    case PAPI_PRELOAD: return get_preload(&o->preload);
    case PAPI_EXEINFO: return get_executable(o);
    case PAPI_HWINFO: return get_hardware(o);
    case PAPI_INHERIT: return get_of_set(t, o->inherit.eventset, 0, &o->inherit.inherit);
    case PAPI_DOMAIN: return get_domain(t, &o->domain);
    case PAPI_GRANUL:
        return get_of_set(t, o->granularity.eventset, PAPI_GRN_THR, &o->granularity.granularity);
    case PAPI_ATTACH:
    case PAPI_DETACH:
    case PAPI_CPU_ATTACH: return PAPI_ENOSUPP;
    default: return PAPI_EINVAL;
    }
}

static int processors(void) {
    const PAPI_hw_info_t *info = PAPI_get_hardware_info();
    return info ? info->ncpu : 0;
}

int PAPI_get_opt(int option, PAPI_option_t *o) {
    CALL(PAPI_get_opt);
    if (option == PAPI_LIB_VERSION) return PAPI_VERSION;
    if (option == PAPI_DEBUG) RETURN(o ? kl_get_debug(&o->debug) : PAPI_EINVAL);
    HERE(t);
    switch (option) {
    case PAPI_MAX_HWCTRS:
    case PAPI_MAX_MPX_CTRS:
    case PAPI_DEFDOM:
    case PAPI_DEFGRN:
    case PAPI_SHLIBINFO:
    case PAPI_COMPONENTINFO: return PAPI_get_cmp_opt(option, o, 0);
    case PAPI_CLOCKRATE: return (int)kl_mhz();
    case PAPI_MAX_CPUS: return processors();
    default: RETURN(o ? get_option(t, option, o) : PAPI_EINVAL);
    }
}

int PAPI_get_cmp_opt(int option, PAPI_option_t *o, int component) {
    CALL(PAPI_get_cmp_opt);
    HERE(t);
    if (check_component(t, component) != PAPI_OK) RETURN(PAPI_ECMP);
    switch (option) {
    case PAPI_SHLIBINFO: RETURN(o ? get_libraries(o) : PAPI_EINVAL);
    case PAPI_COMPONENTINFO: RETURN(o ? get_component(o, component) : PAPI_EINVAL);
    case PAPI_MAX_HWCTRS: return kistalub_counters(&t->library, (uint32_t)component);
    case PAPI_MAX_MPX_CTRS: return MOST_EVENTS;
    case PAPI_DEFDOM: return kl_default_domain((uint32_t)component);
    case PAPI_DEFGRN: return PAPI_GRN_THR;
    default: RETURN(PAPI_EINVAL);
    }
}

int PAPI_set_cmp_domain(int domain, int component) {
    CALL(PAPI_set_cmp_domain);
    PAPI_option_t o = { .defdomain = { .def_cidx = component, .domain = domain } };
    RETURN(PAPI_set_opt(PAPI_DEFDOM, &o));
}

int PAPI_set_domain(int domain) {
    CALL(PAPI_set_domain);
    RETURN(PAPI_set_cmp_domain(domain, 0));
}

int PAPI_set_cmp_granularity(int granularity, int component) {
    CALL(PAPI_set_cmp_granularity);
    PAPI_option_t o = { .defgranularity = { .def_cidx = component, .granularity = granularity } };
    RETURN(PAPI_set_opt(PAPI_DEFGRN, &o));
}

int PAPI_set_granularity(int granularity) {
    CALL(PAPI_set_granularity);
    RETURN(PAPI_set_cmp_granularity(granularity, 0));
}

int PAPI_multiplex_init(void) {
    CALL(PAPI_multiplex_init);
    RETURN(atomic_load(&kl_generation) ? PAPI_OK : PAPI_ENOINIT);
}

int PAPI_set_multiplex(int set) {
    CALL(PAPI_set_multiplex);
    PAPI_option_t o = { .multiplex = {
                            .eventset = set, .ns = 0, .flags = PAPI_MULTIPLEX_DEFAULT } };
    RETURN(PAPI_set_opt(PAPI_MULTIPLEX, &o));
}

/* 0 also if there is no such set, as in PAPI. */
int PAPI_get_multiplex(int set) {
    CALL(PAPI_get_multiplex);
    PAPI_option_t o = { .multiplex = { .eventset = set } };
    int is = PAPI_get_opt(PAPI_MULTIPLEX, &o);
    return is < 0 ? 0 : is;
}
