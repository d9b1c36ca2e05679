/* All of PAPI's presets: each has PAPI's name, code, description and kind, and where the preset
 * file has a user event of its meaning it counts. */
#include "papi.h"
#include "wanted.h"
#include <string.h>

#define ALL PAPI_END_idx

static long long counted(int event, const char *name) {
    int set = PAPI_NULL, codes[2] = { 0, 0 }, number = 2;
    long long values[2] = { -1, -1 };
    WANT(PAPI_create_eventset(&set), PAPI_OK);
    if (name) WANT(PAPI_add_named_event(set, name), PAPI_OK);
    else WANT(PAPI_add_event(set, event), PAPI_OK);
    WANT(PAPI_add_event(set, event), PAPI_EINVAL);
    WANT(PAPI_add_event(set, PAPI_BR_INS), PAPI_OK);
    WANT(PAPI_list_events(set, codes, &number), PAPI_OK);
    WANT(number, 2);
    WANT(codes[0], event);
    WANT(codes[1], PAPI_BR_INS);
    WANT(PAPI_start(set), PAPI_OK);
    WANT(kistalub_go(3, NULL), PAPI_OK);
    WANT(PAPI_stop(set, values), PAPI_OK);
    WANT(values[1], 0);
    WANT(PAPI_remove_event(set, PAPI_BR_INS), PAPI_OK);
    if (name) WANT(PAPI_remove_named_event(set, name), PAPI_OK);
    else WANT(PAPI_remove_event(set, event), PAPI_OK);
    WANT(PAPI_num_events(set), 0);
    WANT(PAPI_destroy_eventset(&set), PAPI_OK);
    return values[0];
}

/* One after the other in the order of their codes. */
static int enumerated(int modifier) {
    int event = PAPI_PRESET_MASK, last = -1, n = 0, code = PAPI_enum_event(&event, PAPI_ENUM_FIRST);
    for (; code == PAPI_OK; code = PAPI_enum_event(&event, modifier)) {
        WANT(event > last || n == 0, 1);
        n += modifier != PAPI_PRESET_ENUM_AVAIL || PAPI_query_event(event) == PAPI_OK;
        last = event;
    }
    WANT(code, PAPI_ENOEVNT);
    return n;
}

static int described(void) {
    int available = 0;
    for (int place = 0; place < ALL; place++) {
        const int event = place | PAPI_PRESET_MASK;
        PAPI_event_info_t info;
        char name[PAPI_MAX_STR_LEN];
        int code, is_there = PAPI_query_event(event) == PAPI_OK;
        WANT(PAPI_event_code_to_name(event, name), PAPI_OK);
        WANT(strncmp(name, "PAPI_", 5), 0);
        WANT(PAPI_event_name_to_code(name, &code), PAPI_OK);
        WANT(code, event);
        WANT(PAPI_query_named_event(name), is_there ? PAPI_OK : PAPI_ENOEVNT);
        WANT(PAPI_get_event_info(event, &info), PAPI_OK);
        WANT(strcmp(info.symbol, name), 0);
        WANT(info.long_descr[0] != 0 && info.short_descr[0] != 0, 1);
        WANT(info.event_type != 0, 1);
        WANT(info.count > 0, is_there);
        available += is_there;
    }
    return available;
}

static void one(void) {
    PAPI_event_info_t info;
    int user;
    WANT(PAPI_get_event_info(PAPI_DP_OPS, &info), PAPI_OK);
    WANT(strcmp(info.long_descr, "Floating point operations; optimized to count scaled double "
                                 "precision vector operations"),
         0);
    WANT(strcmp(info.short_descr, "DP operations"), 0);
    WANT(strcmp(info.derived, "DERIVED_POSTFIX"), 0);
    WANT(info.event_type, PAPI_PRESET_BIT_INS | PAPI_PRESET_BIT_FP);
    WANT(info.count, 4);
    WANT(PAPI_DP_OPS, (int)0x80000068);
    WANT(PAPI_event_name_to_code("DP_OPS", &user), PAPI_OK);
    WANT(IS_USER_DEFINED(user), 1);
    WANT(PAPI_query_event(user), PAPI_OK);
    WANT(PAPI_get_event_component(PAPI_DP_OPS), 0);
}

/* The rates of floating point take the presets that PAPI names for them. */
static void rates(void) {
    static const int flips[] = { PAPI_FP_INS, PAPI_VEC_SP, PAPI_VEC_DP },
                     flops[] = { PAPI_FP_OPS, PAPI_SP_OPS, PAPI_DP_OPS };
    float real, own, rate;
    long long events;
    for (int i = 0; i < 3; i++) {
        WANT(PAPI_flips_rate(flips[i], &real, &own, &events, &rate), PAPI_OK);
        WANT(PAPI_rate_stop(), PAPI_OK);
        WANT(PAPI_flops_rate(flops[i], &real, &own, &events, &rate), PAPI_OK);
        WANT(PAPI_rate_stop(), PAPI_OK);
        WANT(PAPI_flips_rate(flops[i], &real, &own, &events, &rate), PAPI_ENOEVNT);
        WANT(PAPI_flops_rate(flips[i], &real, &own, &events, &rate), PAPI_ENOEVNT);
    }
}

int main(void) {
    WANT(PAPI_library_init(PAPI_VER_CURRENT), PAPI_VER_CURRENT);
    int available = described();
    one();
    WANT(enumerated(PAPI_ENUM_EVENTS), ALL);
    WANT(enumerated(PAPI_PRESET_ENUM_AVAIL), available);
    WANT(PAPI_get_component_info(0)->num_preset_events, available);
    WANT(PAPI_query_event(PAPI_CA_SNP), PAPI_ENOEVNT);
    printf("PAPI_DP_OPS %lld\n", counted(PAPI_DP_OPS, NULL));
    printf("PAPI_L1_DCA %lld\n", counted(PAPI_L1_DCA, "PAPI_L1_DCA"));
    rates();
    printf("%d of %d are available\n", available, ALL);
    PAPI_shutdown();
    return 0;
}
