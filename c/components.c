/* Components: PAPI_get_component_info(3). */
#include "posix.h"
#include "calls.h"
#include "codes.h"
#include "components.h"
#include "events.h"
#include "limits.h"
#include "locks.h"
#include "options.h"
#include "papi.h"
#include "sets.h"
#include "thread.h"
#include "versions.h"

#include <pthread.h>
#include <stdint.h>
#include <stdio.h>
#include <string.h>

/* Both under kl_component_lock. */
static struct {
    PAPI_component_info_t infos[MOST_COMPONENTS];
    char pmus[MOST_COMPONENTS][PAPI_MAX_STR_LEN];
} known;
/* What the program disabled before PAPI_library_init, by numbers as bits and by names. */
static struct {
    unsigned numbers;
    char names[MOST_COMPONENTS][PAPI_MAX_STR_LEN];
    int name_count;
} disabled;

/* The component of processors has PAPI's name for it, by which programs look for it, and is found
 * by that of the unit's file too. */
static const struct {
    const char *unit, *papi, *brief;
} PROCESSORS = { "cpu", "perf_event", "perf" };

static const char *papi_name(const char *name) {
    return strcmp(name, PROCESSORS.unit) ? name : PROCESSORS.papi;
}

/* A part of what the unit's file says of a component. */
int kl_component_text(thread_state *t, int component, uint32_t part, uint32_t place, char *text,
                      size_t room) {
    uint64_t length = 0;
    if (component < 0) return PAPI_ENOCMP;
    int code = kistalub_component(&t->library, (uint32_t)component, part, place,
                                  (unsigned char *)text, room - 1, &length);
    code = kl_ended(code, text, room - 1, length);
    if (code == PAPI_OK && part == KISTALUB_COMPONENT_NAME && papi_name(text) != text)
        snprintf(text, room, "%s", PROCESSORS.papi);
    return code;
}

/* Whether the program disabled a component of this number and name. */
static int is_disabled(int component, const char *name) {
    int is = disabled.numbers >> component & 1;
    for (int i = 0; i < disabled.name_count; i++) is |= !strcmp(disabled.names[i], name);
    return is;
}

static int is_any_disabled(void) {
    pthread_mutex_lock(&kl_component_lock);
    int is = disabled.numbers || disabled.name_count;
    pthread_mutex_unlock(&kl_component_lock);
    return is;
}

int kl_is_disabled(thread_state *t, int component) {
    char name[PAPI_MAX_STR_LEN];
    if (!is_any_disabled() ||
        kl_component_text(t, component, KISTALUB_COMPONENT_NAME, 0, name, sizeof name) != PAPI_OK ||
        component >= MOST_COMPONENTS)
        return 0;
    pthread_mutex_lock(&kl_component_lock);
    int is = is_disabled(component, name);
    pthread_mutex_unlock(&kl_component_lock);
    return is;
}

/* PAPI_ENOEVNT where the component of an event is disabled. The code is that of the thread's
 * library. */
int kl_check_enabled(thread_state *t, uint32_t own) {
    uint32_t component = 0;
    if (!is_any_disabled() || kistalub_component_of(&t->library, own, &component) != PAPI_OK)
        return PAPI_OK;
    return kl_is_disabled(t, (int)component) ? PAPI_ENOEVNT : PAPI_OK;
}

/* The same of an event by its name. */
int kl_check_known(thread_state *t, const char *name) {
    uint32_t own = 0;
    if (!is_any_disabled()) return PAPI_OK;
    int code =
        kistalub_name_to_code(&t->library, (const unsigned char *)name, kl_name_length(name), &own);
    return code == PAPI_OK ? kl_check_enabled(t, own) : PAPI_OK;
}

/* How many presets derive from native events of a component, or PAPI_ENOMEM. */
static int presets_of(thread_state *t, uint32_t component) {
    uint32_t code = 0, found = 0;
    int n = 0;
    for (int place = 0; place < PAPI_END_idx; place++) {
        if (kl_code_inward(t, place | PAPI_PRESET_MASK, &code) != PAPI_OK) return PAPI_ENOMEM;
        n += kistalub_component_of(&t->library, code, &found) == PAPI_OK && found == component;
    }
    return n;
}

/* Says of a component what the model has. */
static void describe(thread_state *t, int component, const char *name, const char *pmu,
                     int presets) {
    PAPI_component_info_t *info = &known.infos[component];
    memset(info, 0, sizeof *info);
    snprintf(info->name, sizeof info->name, "%s", name);
    snprintf(info->short_name, sizeof info->short_name, "%.*s", (int)sizeof info->short_name - 1,
             strcmp(name, PROCESSORS.papi) ? name : PROCESSORS.brief);
    snprintf(info->description, sizeof info->description, "Modelled counters of the pmu %.90s",
             pmu);
    snprintf(info->version, sizeof info->version, "1.0");
    snprintf(info->support_version, sizeof info->support_version, "n/a");
    snprintf(info->kernel_version, sizeof info->kernel_version, "n/a");
    memcpy(known.pmus[component], pmu, strlen(pmu) + 1);
    info->pmu_names[0] = known.pmus[component];
    info->CmpIdx = component;
    info->initialized = 1;
    info->num_cntrs = kistalub_counters(&t->library, (uint32_t)component);
    info->num_mpx_cntrs = MOST_EVENTS;
    info->num_preset_events = presets;
    info->num_native_events = kistalub_natives(&t->library, (uint32_t)component);
    info->available_domains = PAPI_DOM_USER | PAPI_DOM_KERNEL;
    info->default_granularity = info->available_granularities = PAPI_GRN_THR;
    info->hardware_intr = info->kernel_multiplex = info->cntr_umasks = 1;
    info->precise_intr = info->fast_counter_read = 1;
}

/* What may have changed since. Another thread may read what was given before: it is written only
 * where it has. */
static void take_changes(int component, const char *name) {
    PAPI_component_info_t *info = &known.infos[component];
    int domain = kl_default_domain((uint32_t)component);
    if (info->default_domain != domain) info->default_domain = domain;
    if (info->disabled || !is_disabled(component, name)) return;
    info->disabled = PAPI_ECMP_DISABLED;
    snprintf(info->disabled_reason, sizeof info->disabled_reason,
             "Disabled by PAPI_disable_component()");
}

/* Whether what is told of a component is that of this name and pmu. Under the lock. */
static int is_told(int component, const char *name, const char *pmu) {
    return !strcmp(known.infos[component].name, name) && !strcmp(known.pmus[component], pmu);
}

static int is_known(int component, const char *name, const char *pmu) {
    pthread_mutex_lock(&kl_component_lock);
    int is = is_told(component, name, pmu);
    pthread_mutex_unlock(&kl_component_lock);
    return is;
}

const PAPI_component_info_t *PAPI_get_component_info(int component) {
    CALL(PAPI_get_component_info);
    char name[PAPI_MAX_STR_LEN], pmu[PAPI_MAX_STR_LEN];
    int code;
    thread_state *t = kl_current_thread(&code);
    if (!t || component < 0 || component >= MOST_COMPONENTS) return NULL;
    if (kl_component_text(t, component, KISTALUB_COMPONENT_NAME, 0, name, sizeof name) != PAPI_OK)
        return NULL;
    if (kl_component_text(t, component, KISTALUB_COMPONENT_PMU, 0, pmu, sizeof pmu) != PAPI_OK)
        return NULL;
    int presets = is_known(component, name, pmu) ? 0 : presets_of(t, (uint32_t)component);
    if (presets < 0) return NULL;
    pthread_mutex_lock(&kl_component_lock);
    if (!is_told(component, name, pmu)) describe(t, component, name, pmu, presets);
    take_changes(component, name);
    const PAPI_component_info_t *told = kl_told_component(&known.infos[component]);
    pthread_mutex_unlock(&kl_component_lock);
    return told;
}

/* What is known of the components of one unit ends with it. */
void kl_components_end(void) {
    pthread_mutex_lock(&kl_component_lock);
    memset(known.infos, 0, sizeof known.infos);
    disabled.numbers = 0;
    disabled.name_count = 0;
    pthread_mutex_unlock(&kl_component_lock);
}

int PAPI_get_component_index(const char *name) {
    CALL(PAPI_get_component_index);
    char own[PAPI_MAX_STR_LEN];
    HERE(t);
    if (!name) RETURN(PAPI_EINVAL);
    for (int component = 0;
         kl_component_text(t, component, KISTALUB_COMPONENT_NAME, 0, own, sizeof own) == PAPI_OK;
         component++)
        if (!strcmp(own, papi_name(name))) RETURN(component);
    RETURN(PAPI_ENOCMP);
}

/* Before PAPI_library_init, which opens the unit: so only the number is looked at. */
int PAPI_disable_component(int component) {
    CALL(PAPI_disable_component);
    if (PAPI_is_initialized() != PAPI_NOT_INITED) RETURN(PAPI_ENOINIT);
    if (component < 0 || component >= MOST_COMPONENTS) RETURN(PAPI_ENOCMP);
    pthread_mutex_lock(&kl_component_lock);
    disabled.numbers |= 1u << component;
    pthread_mutex_unlock(&kl_component_lock);
    return PAPI_OK;
}

int PAPI_disable_component_by_name(const char *name) {
    CALL(PAPI_disable_component_by_name);
    if (PAPI_is_initialized() != PAPI_NOT_INITED) RETURN(PAPI_ENOINIT);
    if (!name || strnlen(name, PAPI_MAX_STR_LEN) == PAPI_MAX_STR_LEN) RETURN(PAPI_ENOCMP);
    pthread_mutex_lock(&kl_component_lock);
    int has_room = disabled.name_count < MOST_COMPONENTS;
    if (has_room) strcpy(disabled.names[disabled.name_count++], papi_name(name));
    pthread_mutex_unlock(&kl_component_lock);
    RETURN(has_room ? PAPI_OK : PAPI_ENOCMP);
}

/* The component of an event; a preset or user event that is not available belongs to the first, as
 * all do in PAPI. */
int PAPI_get_event_component(int event) {
    CALL(PAPI_get_event_component);
    uint32_t code = 0, component = 0;
    native_place at = { 0, 0 };
    HERE(t);
    if (!(event & PAPI_PRESET_MASK)) {
        int answer = kl_place_of(t, event, &at);
        RETURN(answer == PAPI_OK ? (int)at.component : answer);
    }
    int answer = kl_code_in_library(t, event, &code);
    if (answer == PAPI_OK) answer = kistalub_component_of(&t->library, code, &component);
    RETURN(answer == PAPI_OK || answer == PAPI_ENOEVNT ? (int)component : answer);
}

/* The component of a set's events, or the one that it was assigned. */
static int component_of_set(thread_state *t, int set) {
    kl_events events;
    uint32_t component = 0;
    thread_state *owner = kl_owner_of(t, set);
    int code = kl_events_in(owner, set, &events);
    if (code == PAPI_OK && events.count) {
        code = kistalub_component_of(&owner->library, events.codes[0], &component);
        if (code == PAPI_OK || code == PAPI_ENOEVNT) code = (int)component;
    } else if (code == PAPI_OK)
        code =
            kl_set_of(owner, set)->component ? kl_set_of(owner, set)->component - 1 : PAPI_ENOCMP;
    kl_let_owner_go(owner);
    return code;
}

int PAPI_get_eventset_component(int set) {
    CALL(PAPI_get_eventset_component);
    HERE_OR_PAST(t);
    RETURN(component_of_set(t, set));
}

int PAPI_num_cmp_hwctrs(int component) {
    CALL(PAPI_num_cmp_hwctrs);
    HERE(t);
    RETURN(kistalub_counters(&t->library, component < 0 ? UINT32_MAX : (uint32_t)component));
}

int PAPI_num_hwctrs(void) {
    CALL(PAPI_num_hwctrs);
    RETURN(PAPI_num_cmp_hwctrs(0));
}

int PAPI_num_components(void) {
    CALL(PAPI_num_components);
    int n = 0, code;
    HERE(t);
    while ((code = kistalub_counters(&t->library, (uint32_t)n)) >= 0) n++;
    RETURN(code == PAPI_ENOCMP ? n : code);
}
