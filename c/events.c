/* Events: their names and codes, and what is told of them. */
#include "posix.h"
#include "calls.h"
#include "codes.h"
#include "components.h"
#include "events.h"
#include "papi.h"
#include "presets.h"
#include "thread.h"
#include "versions.h"

#include <stdint.h>
#include <stdio.h>
#include <string.h>

/* The code of an event that can be counted. */
static int code_named(thread_state *t, const char *name, int *event) {
    uint32_t own = 0;
    int code = kl_check_known(t, name);
    if (code == PAPI_OK)
        code = kistalub_name_to_code(&t->library, (const unsigned char *)name, kl_name_length(name),
                                     &own);
    return code == PAPI_OK ? kl_code_outward(t, own, event) : code;
}

/* A preset has its code also where it is not available. */
int PAPI_event_name_to_code(const char *in, int *out) {
    CALL(PAPI_event_name_to_code);
    HERE(t);
    if (!in || !out) RETURN(PAPI_EINVAL);
    int code = code_named(t, in, out);
    RETURN(code == PAPI_ENOEVNT ? kl_preset_named(in, out) : code);
}

/* Ends a text of this length; one that had no room is PAPI_EBUF. */
int kl_ended(int code, char *text, uint64_t room, uint64_t length) {
    if (code == PAPI_EINVAL && length > room) code = PAPI_EBUF;
    text[code == PAPI_OK ? length : 0] = 0;
    return code;
}

/* The name of an event in NAME_ROOM places. */
int kl_name_in(thread_state *t, int event, char *name) {
    uint64_t length = 0;
    native_place at;
    if (kl_is_row(event)) {
        int found = kl_place_of(t, event, &at);
        return found == PAPI_OK ? kl_native_text(t, at, KISTALUB_ROW_NAME, 0, name, NAME_ROOM)
                                : found;
    }
    if (kl_preset_of(event)) {
        snprintf(name, NAME_ROOM, "%s", kl_preset_of(event)->name);
        return PAPI_OK;
    }
    uint32_t own;
    int code = kl_code_in_library(t, event, &own);
    if (code == PAPI_OK)
        code =
            kistalub_code_to_name(&t->library, own, (unsigned char *)name, NAME_ROOM - 1, &length);
    return kl_ended(code, name, NAME_ROOM - 1, length);
}

/* A part of what is told of an event, cut to the room that there is. */
static int info_in(thread_state *t, uint32_t code, uint32_t part, uint32_t place, char *text,
                   size_t room) {
    char whole[NAME_ROOM];
    uint64_t length = 0;
    int answer = kistalub_info(&t->library, code, part, place, (unsigned char *)whole,
                               sizeof whole - 1, &length);
    answer = kl_ended(answer, whole, sizeof whole - 1, length);
    snprintf(text, room, "%s", whole);
    return answer;
}

int PAPI_event_code_to_name(int event, char *out) {
    CALL(PAPI_event_code_to_name);
    char name[NAME_ROOM];
    HERE(t);
    if (!out) RETURN(PAPI_EINVAL);
    int code = kl_name_in(t, event, name);
    if (code == PAPI_OK && strlen(name) >= PAPI_MAX_STR_LEN) RETURN(PAPI_EBUF);
    if (code == PAPI_OK) memcpy(out, name, strlen(name) + 1);
    RETURN(code);
}

/* Whether an event can be counted. */
static int query(thread_state *t, int event) {
    char name[NAME_ROOM];
    uint32_t own = 0, component = 0;
    if (IS_PRESET(event) && (event & PAPI_PRESET_AND_MASK) >= PAPI_MAX_PRESET_EVENTS)
        return PAPI_ENOTPRESET;
    if (!(event & PAPI_PRESET_MASK)) return kl_name_in(t, event, name);
    int code = kl_code_in_library(t, event, &own);
    if (code == PAPI_OK) code = kistalub_component_of(&t->library, own, &component);
    return code == PAPI_OK ? kl_check_enabled(t, own) : code;
}

int PAPI_query_named_event(const char *name) {
    CALL(PAPI_query_named_event);
    int event;
    HERE(t);
    if (!name) RETURN(PAPI_EINVAL);
    RETURN(kl_preset_named(name, &event) == PAPI_OK ? query(t, event)
                                                    : code_named(t, name, &event));
}

int PAPI_query_event(int event) {
    CALL(PAPI_query_event);
    HERE(t);
    RETURN(query(t, event));
}

/* What the unit's file says of a native event. Where it has one umask, the description of that
 * stands behind the event's own. */
static int native_info(thread_state *t, native_place at, PAPI_event_info_t *info) {
    char name[NAME_ROOM], description[NAME_ROOM];
    int code = kl_native_text(t, at, KISTALUB_ROW_DESCRIPTION, 0, info->long_descr,
                              sizeof info->long_descr);
    info->component_index = (int)at.component;
    for (uint32_t mask = 0; code == PAPI_OK; mask++) {
        code = kl_native_text(t, at, KISTALUB_ROW_MASK, mask, name, sizeof name);
        if (code == PAPI_ENOEVNT) return PAPI_OK;
        if (code != PAPI_OK || strcmp(name, info->symbol)) continue;
        code = kl_native_text(t, at, KISTALUB_ROW_MASK_DESCRIPTION, mask, description,
                              sizeof description);
        size_t n = strlen(info->long_descr);
        snprintf(info->long_descr + n, sizeof info->long_descr - n, ", masks:%s", description);
    }
    return code;
}

/* The formula and the native events of a preset or a user event that is available. */
static int formula_info(thread_state *t, uint32_t code, PAPI_event_info_t *info) {
    int answer = info_in(t, code, KISTALUB_DERIVED_TYPE, 0, info->derived, sizeof info->derived);
    if (answer == PAPI_OK)
        answer = info_in(t, code, KISTALUB_FORMULA, 0, info->postfix, sizeof info->postfix);
    while (answer == PAPI_OK && info->count < PAPI_MAX_INFO_TERMS) {
        int native;
        answer = info_in(t, code, KISTALUB_NATIVE, info->count, info->name[info->count],
                         sizeof *info->name);
        if (answer != PAPI_OK || !info->name[info->count][0]) break;
        answer = code_named(t, info->name[info->count], &native);
        if (answer == PAPI_OK) info->code[info->count++] = (unsigned)native;
    }
    return answer;
}

/* What is told of a preset or a user event. A preset has PAPI's words, unless the preset file has
 * others for it. */
static int derived_info(thread_state *t, PAPI_event_info_t *info) {
    const kl_preset *preset = kl_preset_of((int)info->event_code);
    uint32_t code = 0;
    int answer = kl_code_in_library(t, (int)info->event_code, &code);
    if (preset) {
        snprintf(info->long_descr, sizeof info->long_descr, "%s", preset->long_description);
        snprintf(info->short_descr, sizeof info->short_descr, "%s", preset->description);
        info->event_type = preset->kinds;
        if (answer == PAPI_OK && !kl_is_modelled(preset))
            answer = IS_USER_DEFINED((int)code) ? PAPI_OK : PAPI_ENOEVNT;
    } else if (answer == PAPI_OK)
        answer =
            info_in(t, code, KISTALUB_DESCRIPTION, 0, info->long_descr, sizeof info->long_descr);
    if (answer == PAPI_OK) answer = formula_info(t, code, info);
    return preset && answer == PAPI_ENOEVNT ? PAPI_OK : answer;
}

int PAPI_get_event_info(int event, PAPI_event_info_t *info) {
    CALL(PAPI_get_event_info);
    native_place at;
    HERE(t);
    if (!info) RETURN(PAPI_EINVAL);
    memset(info, 0, sizeof *info);
    kl_ends_event_info(info);
    info->event_code = (unsigned)event;
    int answer = kl_name_in(t, event, info->symbol);
    if (answer == PAPI_OK && event & PAPI_PRESET_MASK) answer = derived_info(t, info);
    else if (answer == PAPI_OK) {
        answer = kl_place_of(t, event, &at);
        if (answer == PAPI_OK) answer = native_info(t, at, info);
    }
    if (!info->short_descr[0])
        snprintf(info->short_descr, sizeof info->short_descr, "%.*s",
                 (int)sizeof info->short_descr - 1, info->long_descr);
    RETURN(answer);
}
