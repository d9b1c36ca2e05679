/* Event sets and their events. */
#include "posix.h"
#include "calls.h"
#include "codes.h"
#include "components.h"
#include "events.h"
#include "limits.h"
#include "options.h"
#include "papi.h"
#include "presets.h"
#include "sets.h"
#include "thread.h"
#include "watches.h"

#include <stdint.h>
#include <string.h>

/* Gives the set another domain. */
int kl_set_domain(thread_state *t, int set, int domain) {
    kl_set *s = kl_set_of(t, set);
    if (!s) return PAPI_ENOEVST;
    if (s->domain == domain) return PAPI_OK;
    int code = kistalub_set_domain(&t->library, kl_set_number(t, set), (uint32_t)domain);
    if (code == PAPI_OK) s->domain = domain;
    return code;
}

static int make_set(thread_state *t, int *set) {
    uint32_t own = 0;
    int code = kistalub_create(&t->library, &own);
    if (code != PAPI_OK) return code;
    if (own >= MOST_SETS) return PAPI_ECOUNT;
    code = kl_number_set(t, own, set);
    if (code != PAPI_OK) {
        kistalub_destroy(&t->library, own);
        return code;
    }
    t->sets[own]->domain = PAPI_DOM_USER;
    return kl_set_domain(t, *set, kl_default_domain(0));
}

int PAPI_create_eventset(int *set) {
    CALL(PAPI_create_eventset);
    HERE(t);
    if (!set || *set != PAPI_NULL) RETURN(PAPI_EINVAL);
    RETURN(make_set(t, set));
}

static int destroy(thread_state *t, int set) {
    thread_state *owner = kl_owner_of(t, set);
    uint32_t own = kl_set_number(owner, set);
    int code = kistalub_destroy(&owner->library, own);
    if (code == PAPI_OK) kl_unnumber_set(owner, own);
    kl_let_owner_go(owner);
    return code;
}

int PAPI_destroy_eventset(int *set) {
    CALL(PAPI_destroy_eventset);
    HERE_OR_PAST(t);
    if (!set) RETURN(PAPI_EINVAL);
    int code = destroy(t, *set);
    if (code != PAPI_OK) RETURN(code);
    *set = PAPI_NULL;
    return PAPI_OK;
}

static int clean_up(thread_state *t, int set) {
    thread_state *owner = kl_owner_of(t, set);
    int code = kistalub_cleanup(&owner->library, kl_set_number(owner, set));
    if (code == PAPI_OK) kl_forget_set(owner, kl_set_of(owner, set));
    kl_let_owner_go(owner);
    return code;
}

int PAPI_cleanup_eventset(int set) {
    CALL(PAPI_cleanup_eventset);
    HERE_OR_PAST(t);
    RETURN(clean_up(t, set));
}

int kl_events_in(thread_state *t, int set, kl_events *events) {
    events->count = 0;
    return kistalub_list_events(&t->library, kl_set_number(t, set), events->codes, MOST_EVENTS,
                                &events->count);
}

int kl_index_in(const kl_events *events, uint32_t code) {
    for (uint64_t i = 0; i < events->count; i++)
        if (events->codes[i] == code) return (int)i;
    return -1;
}

/* PAPI_ENOEVST, and PAPI_EISRUN if the set runs. */
int kl_is_stopped(thread_state *t, int set) {
    uint32_t bits = 0;
    int code = kistalub_state(&t->library, kl_set_number(t, set), &bits);
    return code == PAPI_OK && bits & PAPI_RUNNING ? PAPI_EISRUN : code;
}

/* The part of an array behind a place moves to the place, and a part of zeroes follows. */
static void close_up(void *array, size_t size, uint64_t place) {
    unsigned char *at = (unsigned char *)array + place * size;
    memmove(at, at + size, (MOST_EVENTS - 1 - place) * size);
    memset((unsigned char *)array + (MOST_EVENTS - 1) * size, 0, size);
}

/* One of these events was taken out: what belongs to it goes, and what belongs to those after it
 * follows its events. */
static void follow(thread_state *t, int set, const kl_events *before) {
    kl_events after;
    kl_set *s = kl_set_of(t, set);
    uint64_t place = 0;
    if (kl_events_in(t, set, &after) != PAPI_OK) return;
    while (place < after.count && before->codes[place] == after.codes[place]) place++;
    close_up(s->watches, sizeof *s->watches, place);
    close_up(s->preset_codes, sizeof *s->preset_codes, place);
    close_up(s->last, sizeof *s->last, place);
    s->event_count = (uint32_t)after.count;
    s->is_judged = 0;
    if (!kl_has_handler(s)) s->handler = NULL;
    kl_note_watches(t, s);
}

/* The first event binds a set to its component. The set takes the domain of that, unless it has one
 * of its own. */
static int bind(thread_state *t, int set) {
    kl_events events;
    const kl_set *s = kl_set_of(t, set);
    uint32_t component = 0;
    int code = kl_events_in(t, set, &events);
    if (code != PAPI_OK || events.count != 1 || s->component) return code;
    if (kistalub_component_of(&t->library, events.codes[0], &component) != PAPI_OK) return PAPI_OK;
    return s->domain == kl_default_domain(0) ? kl_set_domain(t, set, kl_default_domain(component))
                                             : PAPI_OK;
}

/* The set has one more event, which was added as a preset that the model does not have, or
 * otherwise: 0. */
static int take_in(thread_state *t, int set, int preset) {
    kl_set *s = kl_set_of(t, set);
    if (s->event_count < MOST_EVENTS) {
        s->preset_codes[s->event_count] = preset;
        s->last[s->event_count++] = 0;
    }
    s->is_judged = 0;
    return bind(t, set);
}

/* Whether the code is that of a preset for which a user event stands. */
static int stands_for(int event) {
    const kl_preset *preset = kl_preset_of(event);
    return preset && !kl_is_modelled(preset);
}

static int add(thread_state *t, int set, int event) {
    uint32_t own;
    int code = kl_code_in_library(t, event, &own);
    if (code == PAPI_OK) code = kl_check_enabled(t, own);
    if (code == PAPI_OK) code = kistalub_add(&t->library, kl_set_number(t, set), own);
    return code == PAPI_OK ? take_in(t, set, stands_for(event) ? event : 0) : code;
}

int PAPI_add_event(int set, int event) {
    CALL(PAPI_add_event);
    HERE(t);
    RETURN(add(t, set, event));
}

static int remove_code(thread_state *t, int set, int event) {
    kl_events before;
    uint32_t own;
    thread_state *owner = kl_owner_of(t, set);
    int code = kl_events_in(owner, set, &before);
    if (code == PAPI_OK) code = kl_code_in_library(owner, event, &own);
    if (code == PAPI_OK) code = kistalub_remove(&owner->library, kl_set_number(owner, set), own);
    if (code == PAPI_OK) follow(owner, set, &before);
    kl_let_owner_go(owner);
    return code;
}

int PAPI_remove_event(int set, int event) {
    CALL(PAPI_remove_event);
    HERE_OR_PAST(t);
    RETURN(remove_code(t, set, event));
}

static int add_named(thread_state *t, int set, const char *name) {
    int event, code = PAPI_OK;
    if (kl_preset_named(name, &event) == PAPI_OK && stands_for(event)) return add(t, set, event);
    name = kl_spelled(name);
    code = kl_check_known(t, name);
    if (code == PAPI_OK)
        code = kistalub_add_named(&t->library, kl_set_number(t, set), (const unsigned char *)name,
                                  kl_name_length(name));
    return code == PAPI_OK ? take_in(t, set, 0) : code;
}

int PAPI_add_named_event(int set, const char *name) {
    CALL(PAPI_add_named_event);
    HERE(t);
    RETURN(name ? add_named(t, set, name) : PAPI_EINVAL);
}

static int remove_named(thread_state *t, int set, const char *name) {
    kl_events before;
    int event;
    if (kl_preset_named(name, &event) == PAPI_OK && stands_for(event))
        return remove_code(t, set, event);
    name = kl_spelled(name);
    thread_state *owner = kl_owner_of(t, set);
    int code = kl_events_in(owner, set, &before);
    if (code == PAPI_OK)
        code = kistalub_remove_named(&owner->library, kl_set_number(owner, set),
                                     (const unsigned char *)name, kl_name_length(name));
    if (code == PAPI_OK) follow(owner, set, &before);
    kl_let_owner_go(owner);
    return code;
}

int PAPI_remove_named_event(int set, const char *name) {
    CALL(PAPI_remove_named_event);
    HERE_OR_PAST(t);
    RETURN(name ? remove_named(t, set, name) : PAPI_EINVAL);
}

/* The number of those that were taken before one was refused, if it was not the first. */
static int each(int (*call)(int, int), int set, const int *events, int number) {
    if (!events || number <= 0) return PAPI_EINVAL;
    for (int i = 0; i < number; i++) {
        int code = call(set, events[i]);
        if (code != PAPI_OK) return i ? i : code;
    }
    return PAPI_OK;
}

int PAPI_add_events(int set, int *events, int number) {
    CALL(PAPI_add_events);
    RETURN(each(PAPI_add_event, set, events, number));
}

int PAPI_remove_events(int set, int *events, int number) {
    CALL(PAPI_remove_events);
    RETURN(each(PAPI_remove_event, set, events, number));
}

int PAPI_assign_eventset_component(int set, int component) {
    CALL(PAPI_assign_eventset_component);
    HERE(t);
    uint32_t number = component < 0 ? UINT32_MAX : (uint32_t)component;
    int code = kistalub_assign_component(&t->library, kl_set_number(t, set), number);
    if (code != PAPI_OK) RETURN(code);
    kl_set_of(t, set)->component = component + 1;
    RETURN(kl_set_domain(t, set, kl_default_domain(number)));
}

/* The codes as the program sees them, as far as there is room. */
static int list_codes(thread_state *t, int set, const kl_events *from, int *events, int *number) {
    const kl_set *s = kl_set_of(t, set);
    int count = from->count < (uint64_t)*number ? (int)from->count : *number;
    for (int i = 0; i < count; i++) {
        events[i] = s->preset_codes[i];
        int code = events[i] ? PAPI_OK : kl_code_outward(t, from->codes[i], &events[i]);
        if (code != PAPI_OK) return code;
    }
    *number = count;
    return PAPI_OK;
}

/* The codes, or with a number of 0 how many there are. */
static int list(thread_state *t, int set, int *events, int *number) {
    kl_events all;
    thread_state *owner = kl_owner_of(t, set);
    int code = kl_events_in(owner, set, &all);
    if (code == PAPI_OK && *number > 0) code = list_codes(owner, set, &all, events, number);
    else if (code == PAPI_OK) *number = (int)all.count;
    kl_let_owner_go(owner);
    return code;
}

int PAPI_list_events(int set, int *events, int *number) {
    CALL(PAPI_list_events);
    HERE_OR_PAST(t);
    if (!number || *number < 0 || (*number > 0 && !events)) RETURN(PAPI_EINVAL);
    RETURN(list(t, set, events, number));
}

int PAPI_num_events(int set) {
    CALL(PAPI_num_events);
    HERE_OR_PAST(t);
    int count = 0, code = list(t, set, NULL, &count);
    RETURN(code == PAPI_OK ? count : code);
}

static int state_of(thread_state *t, int set, int *status) {
    uint32_t bits = 0;
    thread_state *owner = kl_owner_of(t, set);
    int code = kistalub_state(&owner->library, kl_set_number(owner, set), &bits);
    if (code == PAPI_OK)
        *status = (int)bits | (kl_has_profile(kl_set_of(owner, set)) ? PAPI_PROFILING : 0);
    kl_let_owner_go(owner);
    return code;
}

int PAPI_state(int set, int *status) {
    CALL(PAPI_state);
    HERE_OR_PAST(t);
    RETURN(status ? state_of(t, set, status) : PAPI_EINVAL);
}

int PAPI_attach(int set, unsigned long tid) {
    CALL(PAPI_attach);
    (void)set;
    (void)tid;
    RETURN(PAPI_ENOSUPP);
}

int PAPI_detach(int set) {
    CALL(PAPI_detach);
    (void)set;
    RETURN(PAPI_ENOSUPP);
}
