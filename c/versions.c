/* What a program that was compiled by the headers of a later version than PAPI 7.0 finds where
 * these have it. 7.1 has what 7.0 has (Debian's libpapi-dev 7.1.0-5); 7.2 has numbers and members
 * in between (7.2.0-2). The version is that of PAPI_library_init. */
#include "posix.h"
#include "limits.h"
#include "papi.h"
#include "versions.h"

#include <stdatomic.h>
#include <stddef.h>
#include <string.h>

#define MORE_NUMBERS PAPI_VERSION_NUMBER(7, 2, 0, 0)

/* The numbers of 7.2 for an enumeration: one is put in behind PAPI_ENUM_FIRST, and two before
 * PAPI_NTV_ENUM_UMASKS. */
enum { FIRST_OF_COMPONENTS = 2, ALL_OF_CPU = 16, AVAILABLE_OF_CPU = 17 };

/* PAPI_component_info_t of 7.2. */
typedef struct {
    char name[PAPI_MAX_STR_LEN], short_name[PAPI_MIN_STR_LEN], description[PAPI_MAX_STR_LEN];
    char version[PAPI_MIN_STR_LEN], support_version[PAPI_MIN_STR_LEN],
        kernel_version[PAPI_MIN_STR_LEN];
    char disabled_reason[PAPI_HUGE_STR_LEN];
    int disabled;
    char partially_disabled_reason[PAPI_HUGE_STR_LEN];
    int partially_disabled, initialized, further[11];
    char *pmu_names[PAPI_PMU_MAX];
    char rest[sizeof(PAPI_component_info_t) - offsetof(PAPI_component_info_t, reserved)];
} later_info;

static _Atomic int version = PAPI_VERSION;
static later_info infos[MOST_COMPONENTS]; /* under kl_component_lock */

void kl_takes_version(int taken) { version = taken; }

static int is_later(void) { return version >= MORE_NUMBERS; }

int kl_modifier(int modifier) {
    if (!is_later() || modifier < FIRST_OF_COMPONENTS) return modifier;
    switch (modifier) {
    case FIRST_OF_COMPONENTS: return PAPI_NTV_ENUM_GROUPS; /* no component has presets of its own */
    case ALL_OF_CPU: return PAPI_ENUM_EVENTS;
    case AVAILABLE_OF_CPU: return PAPI_PRESET_ENUM_AVAIL;
    default: return modifier - (modifier > AVAILABLE_OF_CPU ? 3 : 1);
    }
}

const PAPI_component_info_t *kl_told_component(const PAPI_component_info_t *info) {
    if (!is_later()) return info;
    later_info told;
    memset(&told, 0, sizeof told);
    memcpy(&told, info, offsetof(PAPI_component_info_t, initialized));
    memcpy(&told.initialized, &info->initialized, sizeof told.initialized + sizeof told.further);
    memcpy(told.pmu_names, info->pmu_names, sizeof told.pmu_names);
    memcpy(told.rest, info->reserved, sizeof told.rest);
    later_info *kept = &infos[info->CmpIdx];
    if (memcmp(kept, &told, sizeof told)) memcpy(kept, &told, sizeof told);
    return (const PAPI_component_info_t *)(const void *)kept;
}

void kl_ends_event_info(PAPI_event_info_t *info) {
    if (is_later()) memset(info + 1, 0, sizeof(int)); /* how many qualifiers there are */
}
