/* What the regions of the high level count: the events of PAPI_EVENTS. */
#include "posix.h"
#include "environment.h"
#include "papi.h"
#include "regions.h"

#include <ctype.h>
#include <stdio.h>
#include <string.h>

/* What is counted where PAPI_EVENTS names nothing that can be. */
#define USUAL_EVENT "PAPI_TOT_CYC"

void kl_region_say(const char *what, const char *name) {
    if (kl_variable("PAPI_HL_VERBOSE")) printf("PAPI-HL %s%s\n", what, name);
}

int kl_make_region_set(int component, int *set) {
    *set = PAPI_NULL;
    int code = PAPI_create_eventset(set);
    if (code != PAPI_OK || component != 0 || !kl_variable("PAPI_MULTIPLEX")) return code;
    code = PAPI_assign_eventset_component(*set, component);
    return code == PAPI_OK ? PAPI_set_multiplex(*set) : code;
}

/* The group of a component, which is new where its events are the first. */
static int group_of(counted_events *counted, int component) {
    for (int i = 0; i < counted->group_count; i++)
        if (counted->groups[i].component == component) return i;
    const PAPI_component_info_t *info = PAPI_get_component_info(component);
    if (!info) return PAPI_ENOMEM;
    if (counted->group_count == MOST_GROUPS) return PAPI_ECOUNT;
    event_group *group = &counted->groups[counted->group_count];
    int code = kl_make_region_set(component, &group->trial);
    if (code != PAPI_OK) return code;
    group->component = component;
    group->count = 0;
    snprintf(group->name, sizeof group->name, "%s", info->name);
    return counted->group_count++;
}

/* Puts an event behind the others of its group. */
static void insert(counted_events *counted, const region_event *event) {
    int place = counted->event_count++;
    while (place > 0 && counted->events[place - 1].group > event->group) {
        counted->events[place] = counted->events[place - 1];
        place--;
    }
    counted->events[place] = *event;
    counted->groups[event->group].count++;
}

/* Takes an event where it is available and can be counted with the others of its group. That memory
 * is refused is the only error. */
static int take_event(counted_events *counted, const char *name, int is_instant) {
    region_event event = { .is_instant = is_instant };
    int fits = strlen(name) < sizeof event.name && counted->event_count < MOST_REGION_EVENTS,
        number, code = PAPI_EINVAL;
    if (fits) {
        strcpy(event.name, name);
        code = PAPI_event_name_to_code(name, &number);
    }
    if (code == PAPI_OK) code = PAPI_query_event(number);
    if (code == PAPI_OK) code = PAPI_get_event_component(number);
    if (code >= 0) code = event.group = group_of(counted, code);
    if (code >= 0) code = PAPI_add_event(counted->groups[event.group].trial, number);
    if (code == PAPI_ENOMEM) return code;
    if (code == PAPI_OK) insert(counted, &event);
    else kl_region_say("Warning: cannot count ", name);
    return PAPI_OK;
}

/* Takes an event of PAPI_EVENTS: a name, which =instant or =delta may follow, with spaces that mean
 * nothing. */
static int take_word(counted_events *counted, const char *word, size_t length) {
    char name[2 * PAPI_MAX_STR_LEN];
    size_t n = 0;
    for (size_t i = 0; i < length && n < sizeof name - 1; i++)
        if (!isspace((unsigned char)word[i])) name[n++] = word[i];
    name[n] = 0;
    char *kind = n ? strrchr(name, '=') : NULL;
    int is_instant = kind && !strcmp(kind, "=instant");
    if (kind && (is_instant || !strcmp(kind, "=delta"))) *kind = 0;
    return name[0] ? take_event(counted, name, is_instant) : PAPI_OK;
}

static void end_trials(counted_events *counted) {
    for (int i = 0; i < counted->group_count; i++) {
        PAPI_cleanup_eventset(counted->groups[i].trial);
        PAPI_destroy_eventset(&counted->groups[i].trial);
    }
}

/* Takes the groups out of which no event could be counted. */
static void drop_empty_groups(counted_events *counted) {
    int kept = 0;
    for (int i = 0; i < counted->group_count; i++) {
        if (counted->groups[i].count == 0) continue;
        for (int e = 0; e < counted->event_count; e++)
            if (counted->events[e].group == i) counted->events[e].group = kept;
        counted->groups[kept++] = counted->groups[i];
    }
    counted->group_count = kept;
}

int kl_choose_region_events(counted_events *counted) {
    const char *names = kl_variable("PAPI_EVENTS");
    const PAPI_hw_info_t *hardware = PAPI_get_hardware_info();
    int code = hardware ? PAPI_OK : PAPI_ENOMEM;
    memset(counted, 0, sizeof *counted);
    if (hardware) {
        snprintf(counted->cpu, sizeof counted->cpu, "%s", hardware->model_string);
        counted->mhz = hardware->cpu_max_mhz;
    }
    while (code == PAPI_OK && names && *names) {
        size_t length = strcspn(names, ",");
        code = take_word(counted, names, length);
        names += length + (names[length] == ',');
    }
    if (code == PAPI_OK && counted->event_count == 0) code = take_event(counted, USUAL_EVENT, 0);
    end_trials(counted);
    drop_empty_groups(counted);
    return code == PAPI_OK && counted->event_count == 0 ? PAPI_EINVAL : code;
}
