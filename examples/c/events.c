/* The native events of the unit with their umasks, and what a preset is derived from. */
#include "papi.h"
#include "wanted.h"
#include <string.h>

static PAPI_event_info_t info;

static void print(const char *margin, int event) {
    WANT(PAPI_get_event_info(event, &info), PAPI_OK);
    printf("%s%s  %s\n", margin, info.symbol, info.long_descr);
}

static void presets(void) {
    int event = PAPI_PRESET_MASK, branches = 0, available = 0;
    for (int kind = PAPI_PRESET_ENUM_BR; PAPI_enum_event(&event, kind) == PAPI_OK;) branches++;
    WANT(branches, 9); /* as many as PAPI has */
    event = PAPI_PRESET_MASK;
    while (PAPI_enum_event(&event, PAPI_PRESET_ENUM_AVAIL) == PAPI_OK) available++;
    WANT(available, 7);
    event = PAPI_PRESET_MASK;
    WANT(PAPI_enum_event(&event, PAPI_NTV_ENUM_UMASKS), PAPI_EINVAL);
    WANT(PAPI_enum_cmp_event(&event, PAPI_ENUM_FIRST, 1), PAPI_ENOCMP);
    event = PAPI_UE_MASK;
    WANT(PAPI_enum_event(&event, PAPI_ENUM_FIRST), PAPI_ENOEVNT);
}

static void natives(void) {
    int event = PAPI_NATIVE_MASK, modifier = PAPI_ENUM_FIRST, set = PAPI_NULL;
    for (; PAPI_enum_event(&event, modifier) == PAPI_OK; modifier = PAPI_ENUM_EVENTS) {
        int masked = event;
        print("", event);
        WANT(PAPI_query_event(event), PAPI_OK);
        while (PAPI_enum_event(&masked, PAPI_NTV_ENUM_UMASKS) == PAPI_OK) print("  ", masked);
    }
    WANT(PAPI_enum_event(&event, PAPI_NTV_ENUM_GROUPS), PAPI_EINVAL);
    WANT(PAPI_enum_cmp_event(&event, PAPI_ENUM_FIRST, 1), PAPI_OK);
    print("component 1: ", event);
    WANT(PAPI_get_event_component(event), 1);
    WANT(PAPI_enum_cmp_event(&event, PAPI_ENUM_EVENTS, 1), PAPI_ENOEVNT);
    WANT(PAPI_enum_cmp_event(&event, PAPI_ENUM_FIRST, 2), PAPI_ENOCMP);
    /* An event with a default umask can be added without one; of one without it a umask has to be
     * chosen. */
    WANT(PAPI_create_eventset(&set), PAPI_OK);
    event = PAPI_NATIVE_MASK;
    WANT(PAPI_enum_event(&event, PAPI_ENUM_FIRST), PAPI_OK);
    while (PAPI_enum_event(&event, PAPI_ENUM_EVENTS) == PAPI_OK) {
        char name[PAPI_MAX_STR_LEN];
        WANT(PAPI_event_code_to_name(event, name), PAPI_OK);
        if (!strcmp(name, "lab::BR_INST")) WANT(PAPI_add_event(set, event), PAPI_OK);
        if (!strcmp(name, "lab::MEM")) WANT(PAPI_add_event(set, event), PAPI_EATTR);
    }
    WANT(PAPI_get_eventset_component(set), 0);
    WANT(PAPI_cleanup_eventset(set), PAPI_OK);
    WANT(PAPI_destroy_eventset(&set), PAPI_OK);
}

int main(void) {
    WANT(PAPI_library_init(PAPI_VER_CURRENT), PAPI_VER_CURRENT);
    natives();
    presets();
    WANT(PAPI_get_event_info(PAPI_L1_DCM, &info), PAPI_OK);
    WANT(info.count, 0);
    WANT(info.event_type, PAPI_PRESET_BIT_CACH | PAPI_PRESET_BIT_L1);
    WANT(PAPI_get_event_info(PAPI_NATIVE_MASK + 77, &info), PAPI_ENOEVNT);
    WANT(PAPI_get_event_info(PAPI_BR_PRC, &info), PAPI_OK);
    printf("%s: %s, %s %s", info.symbol, info.long_descr, info.derived, info.postfix);
    for (unsigned i = 0; i < info.count; i++) printf(" %s", info.name[i]);
    puts("");
    PAPI_shutdown();
    return 0;
}
