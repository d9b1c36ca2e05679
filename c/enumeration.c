/* Events one after the other: PAPI_enum_cmp_event(3). */
#include "posix.h"
#include "calls.h"
#include "codes.h"
#include "components.h"
#include "events.h"
#include "papi.h"
#include "presets.h"
#include "thread.h"
#include "versions.h"

#include <stdint.h>
#include <string.h>

/* The codes of native events that have umasks, without any of them: the component and the row of
 * the event. */
#define ROW_CODES 0x60000000u
#define ROW_SHIFT 20
#define ROW_MASK 0xfffffu

int kl_is_row(int event) { return ((uint32_t)event & 0xe0000000u) == ROW_CODES; }

/* A part of what the unit's file says of a native event. */
int kl_native_text(thread_state *t, native_place at, uint32_t part, uint32_t mask, char *text,
                   size_t room) {
    uint64_t length = 0;
    int code = kistalub_native(&t->library, at.component, at.row, part, mask, (unsigned char *)text,
                               room - 1, &length);
    return kl_ended(code, text, room - 1, length);
}

/* The code by which the thread's library knows an event. */
int kl_code_in_library(thread_state *t, int event, uint32_t *code) {
    native_place at;
    char name[NAME_ROOM];
    if (!kl_is_row(event)) return kl_code_inward(t, event, code);
    int answer = kl_place_of(t, event, &at);
    if (answer == PAPI_OK) answer = kl_native_text(t, at, KISTALUB_ROW_NAME, 0, name, sizeof name);
    if (answer == PAPI_OK)
        answer =
            kistalub_name_to_code(&t->library, (const unsigned char *)name, strlen(name), code);
    return answer;
}

/* The place of a native event in the unit's file. */
int kl_place_of(thread_state *t, int event, native_place *at) {
    if (kl_is_row(event)) {
        at->component = ((uint32_t)event - ROW_CODES) >> ROW_SHIFT;
        at->row = (uint32_t)event & ROW_MASK;
        char name[NAME_ROOM];
        return kl_native_text(t, *at, KISTALUB_ROW_NAME, 0, name, sizeof name);
    }
    uint32_t code = 0;
    int answer = kl_code_in_library(t, event, &code);
    if (answer == PAPI_OK) answer = kistalub_component_of(&t->library, code, &at->component);
    if (answer == PAPI_OK) answer = kistalub_row_of(&t->library, code, &at->row);
    return answer;
}

/* The code of the event in a place. One with umasks has a code of its own, since without a umask it
 * may name no event that can be counted. */
static int code_of_place(thread_state *t, native_place at, int *event) {
    char name[NAME_ROOM], masked[NAME_ROOM];
    int code = kl_native_text(t, at, KISTALUB_ROW_NAME, 0, name, sizeof name);
    if (code == PAPI_OK) code = kl_native_text(t, at, KISTALUB_ROW_MASK, 0, masked, sizeof masked);
    else return code;
    if (code == PAPI_ENOEVNT) return PAPI_event_name_to_code(name, event);
    if (code == PAPI_OK) *event = (int)(ROW_CODES + (at.component << ROW_SHIFT) + at.row);
    return code;
}

/* The first native event of a component or of those after it that are not disabled, up to the last
 * one. */
static int first_from(thread_state *t, uint32_t component, uint32_t last, int *event) {
    for (; component <= last && kistalub_counters(&t->library, component) >= 0; component++) {
        const native_place at = { component, 0 };
        if (kl_is_disabled(t, (int)component)) continue;
        int code = code_of_place(t, at, event);
        if (code != PAPI_ENOEVNT) return code;
    }
    return PAPI_ENOEVNT;
}

/* The native event after this one, in its component or else in those after it. */
static int next_native(thread_state *t, int *event, uint32_t last) {
    native_place at;
    int code = kl_place_of(t, *event, &at);
    if (code != PAPI_OK) return code;
    at.row++;
    code = code_of_place(t, at, event);
    return code == PAPI_ENOEVNT ? first_from(t, at.component + 1, last, event) : code;
}

/* The umask of an event after the one that it has, or its first. */
static int next_mask(thread_state *t, int *event) {
    char own[NAME_ROOM], name[NAME_ROOM];
    native_place at;
    uint32_t mask = 0;
    int code = kl_place_of(t, *event, &at);
    if (code == PAPI_OK && !kl_is_row(*event)) {
        code = kl_name_in(t, *event, own);
        for (int found = 0; code == PAPI_OK && !found; mask++) {
            code = kl_native_text(t, at, KISTALUB_ROW_MASK, mask, name, sizeof name);
            found = code == PAPI_OK && !strcmp(own, name);
        }
    }
    if (code == PAPI_OK) code = kl_native_text(t, at, KISTALUB_ROW_MASK, mask, name, sizeof name);
    return code == PAPI_OK ? PAPI_event_name_to_code(name, event) : code;
}

/* Whether a modifier takes a preset, as PAPI_OK or PAPI_ENOEVNT: those of some kind, all that are
 * available, or all. */
static int taken(int event, int modifier) {
    if (modifier == PAPI_ENUM_FIRST || modifier == PAPI_ENUM_EVENTS) return PAPI_OK;
    if (modifier == PAPI_PRESET_ENUM_AVAIL) return PAPI_query_event(event);
    return kl_preset_of(event)->kinds & (1u << modifier) ? PAPI_OK : PAPI_ENOEVNT;
}

/* The preset after this one that the modifier takes, or the first. */
static int next_preset(int *event, int modifier) {
    unsigned place =
        modifier == PAPI_ENUM_FIRST ? 0 : ((unsigned)*event & PAPI_PRESET_AND_MASK) + 1;
    for (; place < PAPI_END_idx; place++) {
        int preset = (int)place | PAPI_PRESET_MASK, found = taken(preset, modifier);
        if (found == PAPI_OK) *event = preset;
        if (found != PAPI_ENOEVNT) return found;
    }
    return PAPI_ENOEVNT;
}

/* The user event after this one that the modifier takes, or the first. They are of no kind, and all
 * that there are can be counted. */
static int next_user_event(thread_state *t, int *event, int modifier) {
    uint32_t code = 0;
    int is_past = modifier == PAPI_ENUM_FIRST,
        takes = is_past || modifier == PAPI_ENUM_EVENTS || modifier == PAPI_PRESET_ENUM_AVAIL;
    for (uint32_t row = 0; takes && kistalub_code_in_row(&t->library, row, &code) == PAPI_OK;
         row++) {
        if (!IS_USER_DEFINED((int)code)) continue;
        int found = !is_past                             ? PAPI_ENOEVNT
                    : modifier == PAPI_PRESET_ENUM_AVAIL ? PAPI_query_event((int)code)
                                                         : PAPI_OK;
        if (found == PAPI_OK) *event = (int)code;
        if (found != PAPI_ENOEVNT) return found;
        is_past |= code == (uint32_t)*event;
    }
    return PAPI_ENOEVNT;
}

/* The preset or user event after this one that the modifier takes, or the first of them. */
static int next_row(thread_state *t, int *event, int modifier) {
    if (modifier < PAPI_ENUM_EVENTS || modifier > PAPI_PRESET_ENUM_FP) return PAPI_EINVAL;
    return IS_USER_DEFINED(*event) ? next_user_event(t, event, modifier)
                                   : next_preset(event, modifier);
}

/* The native event after this one, or the first, among those of the components from one to
 * another. */
static int native(thread_state *t, int *event, int modifier, uint32_t first, uint32_t last) {
    switch (modifier) {
    case PAPI_ENUM_FIRST: return first_from(t, first, last, event);
    case PAPI_ENUM_EVENTS: return next_native(t, event, last);
    case PAPI_NTV_ENUM_UMASKS: return next_mask(t, event);
    default: return PAPI_EINVAL;
    }
}

int PAPI_enum_event(int *event, int modifier) {
    CALL(PAPI_enum_event);
    HERE(t);
    modifier = kl_modifier(modifier);
    if (!event) RETURN(PAPI_EINVAL);
    if (*event & PAPI_PRESET_MASK) RETURN(next_row(t, event, modifier));
    RETURN(*event & PAPI_NATIVE_MASK ? native(t, event, modifier, 0, UINT32_MAX) : PAPI_EINVAL);
}

int PAPI_enum_cmp_event(int *event, int modifier, int component) {
    CALL(PAPI_enum_cmp_event);
    HERE(t);
    modifier = kl_modifier(modifier);
    if (!event) RETURN(PAPI_EINVAL);
    if (component < 0 || kistalub_counters(&t->library, (uint32_t)component) < 0 ||
        kl_is_disabled(t, component))
        RETURN(PAPI_ENOCMP);
    if (*event & PAPI_PRESET_MASK) RETURN(component ? PAPI_ENOCMP : next_row(t, event, modifier));
    RETURN(*event & PAPI_NATIVE_MASK
               ? native(t, event, modifier, (uint32_t)component, (uint32_t)component)
               : PAPI_EINVAL);
}
