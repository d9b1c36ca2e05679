/* A program that was compiled by the header of PAPI 7.2 (Debian's libpapi-dev 7.2.0-2): the numbers
 * and places are those that it has there. One of 7.1 has those of 7.0. */
#include "papi.h"
#include "wanted.h"
#include <string.h>

enum {
    INITIALIZED = 2568,
    INDEX = 2572,
    COUNTERS = 2576,
    PMU_NAMES = 2616,
    SIZE = 3296,
    QUALIFIERS = 6680,
    EVENT_SIZE = 23068
};
enum {
    COMPONENT_FIRST = 2,
    AVAILABLE = 3,
    MISCELLANEOUS = 4,
    INSTRUCTIONS = 5,
    FLOATING = 15,
    CPU = 16,
    CPU_AVAILABLE = 17,
    UMASKS = 18
};

static int number_at(const void *told, size_t place) {
    int number;
    memcpy(&number, (const char *)told + place, sizeof number);
    return number;
}

static int count(int modifier) {
    int event = PAPI_PRESET_MASK, found = 0;
    if (PAPI_enum_event(&event, PAPI_ENUM_FIRST) != PAPI_OK) return -1;
    while (PAPI_enum_event(&event, modifier) == PAPI_OK) found++;
    return found;
}

static int counts_of(int version, const int *modifiers, int *counts) {
    WANT(PAPI_library_init(version), version);
    for (int i = 0; i < 5; i++) counts[i] = count(modifiers[i]);
    int native = PAPI_NATIVE_MASK, masks = 0;
    WANT(PAPI_enum_cmp_event(&native, PAPI_ENUM_FIRST, 0), PAPI_OK);
    do {
        int mask = native;
        while (PAPI_enum_event(&mask, modifiers[5]) == PAPI_OK) masks++;
    } while (PAPI_enum_cmp_event(&native, PAPI_ENUM_EVENTS, 0) == PAPI_OK);
    return masks;
}

int main(void) {
    static char event[EVENT_SIZE + 8];
    static const int first[] = {
        PAPI_PRESET_ENUM_AVAIL, PAPI_PRESET_ENUM_MSC, PAPI_PRESET_ENUM_INS,
        PAPI_PRESET_ENUM_FP,    PAPI_ENUM_EVENTS,     PAPI_NTV_ENUM_UMASKS
    };
    static const int later[] = { AVAILABLE, MISCELLANEOUS, INSTRUCTIONS, FLOATING, CPU, UMASKS };
    int wanted[5], told[5];
    for (int minor = 0; minor < 2; minor++) {
        int masks = counts_of(PAPI_VERSION_NUMBER(7, minor, 0, 0), first, wanted);
        WANT(masks > 0 && wanted[4] > wanted[2] && wanted[2] > 0, 1);
        WANT(PAPI_get_component_info(0)->initialized, 1);
        WANT(PAPI_get_component_info(1)->CmpIdx, 1);
        memset(event, 7, sizeof event);
        WANT(PAPI_get_event_info(PAPI_TOT_INS, (PAPI_event_info_t *)(void *)event) <= 0, 1);
        WANT(event[QUALIFIERS], 7);
        PAPI_shutdown();
        WANT(counts_of(PAPI_VERSION_NUMBER(7, 2, 0, 0), later, told), masks);
        WANT(memcmp(told, wanted, sizeof told), 0);
        WANT(count(CPU_AVAILABLE), wanted[0]);
        int none = PAPI_PRESET_MASK;
        WANT(PAPI_enum_event(&none, COMPONENT_FIRST), PAPI_EINVAL);
        for (int i = 0; i < 2; i++) {
            const void *info = PAPI_get_component_info(i);
            const char *pmu;
            memcpy(&pmu, (const char *)info + PMU_NAMES, sizeof pmu);
            WANT(strcmp(info, i ? "net" : "perf_event"), 0);
            WANT(strcmp(pmu, i ? "wire" : "lab"), 0);
            WANT(number_at(info, INITIALIZED), 1);
            WANT(number_at(info, INDEX), i);
            WANT(number_at(info, COUNTERS) > 0, 1);
            /* An overflow is told by the counters themselves. */
            WANT(number_at(info, SIZE - 8) & 1, 1);
        }
        WANT(PAPI_get_component_info(0) == PAPI_get_component_info(0), 1);
        WANT(PAPI_get_event_info(PAPI_TOT_INS, (PAPI_event_info_t *)(void *)event) <= 0, 1);
        WANT(number_at(event, QUALIFIERS), 0);
        WANT(event[QUALIFIERS + 4], 7);
        PAPI_shutdown();
    }
    puts("as there");
    return 0;
}
