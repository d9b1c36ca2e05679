/* Each refusal by its code. */
#include "papi.h"
#include "wanted.h"
#include <string.h>

static void handler(int set, void *address, long long vector, void *context) {
    (void)set;
    (void)address;
    (void)vector;
    (void)context;
}

int main(void) {
    int set = PAPI_NULL, other = PAPI_NULL, none = 7, event, next, number = 1, events[2];
    long long counts[32] = { -5, -5 };
    char name[PAPI_MAX_STR_LEN];
    PAPI_option_t option;

    /* before PAPI_library_init */
    WANT(PAPI_is_initialized(), PAPI_NOT_INITED);
    WANT(PAPI_create_eventset(&set), PAPI_ENOINIT);
    WANT(PAPI_start(0), PAPI_ENOINIT);
    WANT(PAPI_library_init(0), PAPI_EINVAL);
    WANT(PAPI_library_init(PAPI_VER_CURRENT), PAPI_VER_CURRENT);
    WANT(PAPI_is_initialized(), PAPI_LOW_LEVEL_INITED);

    /* sets */
    WANT(PAPI_create_eventset(&none), PAPI_EINVAL);
    WANT(PAPI_create_eventset(&set), PAPI_OK);
    WANT(PAPI_create_eventset(&other), PAPI_OK);
    WANT(PAPI_start(7), PAPI_ENOEVST);
    WANT(PAPI_start(-1), PAPI_ENOEVST);
    WANT(PAPI_read(7, counts), PAPI_ENOEVST);
    WANT(PAPI_read(set, NULL), PAPI_EINVAL);
    WANT(PAPI_accum(set, NULL), PAPI_EINVAL);
    WANT(PAPI_destroy_eventset(&none), PAPI_ENOEVST);
    WANT(PAPI_cleanup_eventset(7), PAPI_ENOEVST);
    WANT(PAPI_num_events(7), PAPI_ENOEVST);
    WANT(PAPI_assign_eventset_component(set, 9), PAPI_ENOCMP);

    /* events */
    WANT(PAPI_add_named_event(set, "NOPE"), PAPI_ENOEVNT);
    WANT(PAPI_add_named_event(set, "PAPI_TOT_CYC"), PAPI_ENOEVNT);
    WANT(PAPI_add_named_event(set, "\xff"), PAPI_EINVAL);
    WANT(PAPI_add_named_event(set, NULL), PAPI_EINVAL);
    WANT(PAPI_add_named_event(set, "INST_RETIRED:x"), PAPI_EATTR);
    WANT(PAPI_add_event(set, 0x40000000), PAPI_ENOEVNT);
    WANT(PAPI_add_event(set, 3), PAPI_ENOEVNT);
    WANT(PAPI_start(set), PAPI_EINVAL);
    WANT(PAPI_add_named_event(set, "BR_INST"), PAPI_OK);
    WANT(PAPI_add_named_event(set, "BR_INST"), PAPI_EINVAL);
    WANT(PAPI_add_named_event(set, "BR_MISP"), PAPI_ECNFLCT);
    WANT(PAPI_remove_named_event(set, "CYCLES"), PAPI_EINVAL);
    WANT(PAPI_remove_named_event(set, NULL), PAPI_EINVAL);
    WANT(PAPI_event_name_to_code("BR_INST", &event), PAPI_OK);
    WANT(PAPI_event_code_to_name(event, name), PAPI_OK);
    WANT(strcmp(name, "lab::BR_INST:ALL"), 0);
    WANT(PAPI_event_code_to_name(event + 77, name), PAPI_ENOEVNT);
    WANT(PAPI_query_event(event), PAPI_OK);
    WANT(PAPI_query_event(event + 77), PAPI_ENOEVNT);
    WANT(PAPI_query_named_event("NOPE"), PAPI_ENOEVNT);
    next = event;
    WANT(PAPI_enum_event(&next, PAPI_ENUM_EVENTS), PAPI_OK);
    WANT(PAPI_enum_event(NULL, PAPI_ENUM_EVENTS), PAPI_EINVAL);
    WANT(PAPI_list_events(set, events, &number), PAPI_OK);
    WANT(number, 1);
    WANT(PAPI_overflow(set, event, 100, 0, handler), PAPI_EINVAL);
    WANT(PAPI_overflow(set, event, 1000, 0, NULL), PAPI_EINVAL);
    WANT(PAPI_overflow(set, event + 77, 1000, 0, handler), PAPI_ENOEVNT);

    /* running */
    WANT(PAPI_stop(set, counts), PAPI_ENOTRUN);
    WANT(counts[0], -5);
    WANT(PAPI_start(set), PAPI_OK);
    WANT(PAPI_start(set), PAPI_EISRUN);
    WANT(PAPI_add_named_event(set, "CYCLES"), PAPI_EISRUN);
    WANT(PAPI_cleanup_eventset(set), PAPI_EISRUN);
    WANT(PAPI_destroy_eventset(&set), PAPI_EISRUN);
    WANT(PAPI_set_multiplex(set), PAPI_EISRUN);
    option.domain.eventset = set;
    option.domain.domain = PAPI_DOM_ALL;
    WANT(PAPI_set_opt(PAPI_DOMAIN, &option), PAPI_EISRUN);
    WANT(PAPI_stop(set, counts), PAPI_OK);
    WANT(counts[0], 0);
    WANT(counts[1], -5);
    WANT(PAPI_set_opt(PAPI_DOMAIN, &option), PAPI_OK);
    option.domain.domain = 4;
    WANT(PAPI_set_opt(PAPI_DOMAIN, &option), PAPI_EINVAL_DOM);
    WANT(PAPI_set_domain(8), PAPI_ENOSUPP);
    WANT(PAPI_destroy_eventset(&set), PAPI_EINVAL);
    WANT(PAPI_cleanup_eventset(set), PAPI_OK);
    WANT(PAPI_destroy_eventset(&set), PAPI_OK);
    WANT(set, PAPI_NULL);

    /* what has no meaning here */
    WANT(PAPI_attach(other, 1), PAPI_ENOSUPP);
    WANT(PAPI_write(other, counts), PAPI_ENOSUPP);
    WANT(PAPI_num_components(), 2);
    WANT(PAPI_num_cmp_hwctrs(9), PAPI_ENOCMP);
    WANT(PAPI_unregister_thread(), PAPI_OK);
    WANT(PAPI_unregister_thread(), PAPI_EMISC);
    WANT(strcmp(PAPI_strerror(PAPI_ENOEVST), "No such EventSet available"), 0);
    PAPI_shutdown();
    WANT(PAPI_start(0), PAPI_ENOINIT);
    puts("each as wanted");
    return 0;
}
