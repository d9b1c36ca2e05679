/* Prints what a library says of each of PAPI's presets: the code, the name, both descriptions and
 * the kinds. */
#include <papi.h>
#include <stdio.h>

int main(void) {
    if (PAPI_library_init(PAPI_VER_CURRENT) != PAPI_VER_CURRENT) return 1;
    int event = PAPI_PRESET_MASK, answer = PAPI_enum_event(&event, PAPI_ENUM_FIRST);
    for (; answer == PAPI_OK; answer = PAPI_enum_event(&event, PAPI_ENUM_EVENTS)) {
        PAPI_event_info_t info;
        if (PAPI_get_event_info(event, &info) != PAPI_OK) return 2;
        printf("%x %s|%s|%s|%x\n", (unsigned)event, info.symbol, info.short_descr, info.long_descr,
               info.event_type);
    }
    return answer == PAPI_ENOEVNT ? 0 : 3;
}
