/* Programs that look for the component of processors by PAPI's name for it, as PAPI's counter
 * analysis toolkit does, find it, and by that of the unit's file too. */
#include "papi.h"
#include "kistalub.h"
#include "wanted.h"
#include <string.h>

/* As the toolkit does: the first component of this name. */
static int found(const char *name) {
    for (int i = 0; i < PAPI_num_components(); i++)
        if (!strcmp(PAPI_get_component_info(i)->name, name)) return i;
    return PAPI_ENOCMP;
}

int main(void) {
    const char *unit = getenv("KISTALUB_UNIT");
    int code = PAPI_NATIVE_MASK, set = PAPI_NULL;
    long long value = -1;
    for (const char *const *name = (const char *const[]){ "cpu", "perf_event", NULL }; *name;
         name++) {
        WANT(PAPI_disable_component_by_name(*name), PAPI_OK);
        WANT(kistalub_init(unit, NULL, NULL, NULL), PAPI_OK);
        WANT(PAPI_library_init(PAPI_VER_CURRENT), PAPI_VER_CURRENT);
        WANT(PAPI_get_component_info(0)->disabled, PAPI_ECMP_DISABLED);
        PAPI_shutdown();
    }
    WANT(kistalub_init(unit, NULL, NULL, NULL), PAPI_OK);
    WANT(PAPI_library_init(PAPI_VER_CURRENT), PAPI_VER_CURRENT);
    WANT(found("perf_event"), 0);
    WANT(found("cpu"), PAPI_ENOCMP);
    WANT(strcmp(PAPI_get_component_info(0)->short_name, "perf"), 0);
    WANT(PAPI_get_component_info(0)->disabled, 0);
    WANT(PAPI_get_component_index("perf_event"), 0);
    WANT(PAPI_get_component_index("cpu"), 0);
    WANT(PAPI_get_component_index("perf"), PAPI_ENOCMP);
    WANT(PAPI_get_component_index("net"), 1);
    WANT(strcmp(PAPI_get_component_info(1)->name, "net"), 0);
    WANT(strcmp(PAPI_get_component_info(1)->short_name, "net"), 0);
    WANT(PAPI_enum_cmp_event(&code, PAPI_ENUM_FIRST, 0), PAPI_OK);
    WANT(PAPI_create_eventset(&set), PAPI_OK);
    WANT(PAPI_add_event(set, code), PAPI_OK);
    WANT(PAPI_start(set), PAPI_OK);
    WANT(PAPI_stop(set, &value), PAPI_OK);
    WANT(value, 0);
    PAPI_shutdown();
    puts("found");
    return 0;
}
