/* A threshold of 0 takes the handler or the profile of an event away. */
#include "papi.h"
#include "wanted.h"

static int told;

static void handler(int set, void *address, long long vector, void *context) {
    (void)set; (void)address; (void)vector; (void)context;
    told++;
}

static int state_of(int set) {
    int state = 0;
    WANT(PAPI_state(set, &state), PAPI_OK);
    return state;
}

/* Eight occurrences of 255 instructions, at the addresses 1 to 8. */
static void count(int set) {
    WANT(PAPI_start(set), PAPI_OK);
    WANT(kistalub_go(8, NULL), PAPI_OK);
    WANT(PAPI_stop(set, NULL), PAPI_OK);
}

int main(void) {
    int set = PAPI_NULL, inst, cycles, places[2], number = 2;
    unsigned buckets[1] = { 0 };
    WANT(PAPI_library_init(PAPI_VER_CURRENT), PAPI_VER_CURRENT);
    WANT(PAPI_create_eventset(&set), PAPI_OK);
    WANT(PAPI_event_name_to_code("INST_RETIRED", &inst), PAPI_OK);
    WANT(PAPI_event_name_to_code("CYCLES", &cycles), PAPI_OK);
    WANT(PAPI_overflow(set, inst, 1000, 0, handler), PAPI_ENOEVNT);
    WANT(PAPI_get_overflow_event_index(set, 1, places, &number), PAPI_EINVAL);
    WANT(PAPI_add_event(set, inst), PAPI_OK);
    WANT(PAPI_add_event(set, cycles), PAPI_OK);

    /* a bit of a vector is the place of an event */
    WANT(PAPI_get_overflow_event_index(set, 3, places, &number), PAPI_OK);
    WANT(number, 2);
    WANT(places[0] == 0 && places[1] == 1, 1);
    number = 1;
    WANT(PAPI_get_overflow_event_index(set, 6, places, &number), PAPI_OK);
    WANT(number, 1);
    WANT(places[0], 1);
    WANT(PAPI_get_overflow_event_index(set, 0, places, &number), PAPI_EINVAL);
    WANT(PAPI_get_overflow_event_index(set, 1, NULL, &number), PAPI_EINVAL);
    WANT(PAPI_get_overflow_event_index(set, 1, places, NULL), PAPI_EINVAL);
    number = 0;
    WANT(PAPI_get_overflow_event_index(set, 1, places, &number), PAPI_EINVAL);

    /* the first threshold of a set is not 0, and has a handler */
    WANT(PAPI_overflow(set, inst, 0, 0, handler), PAPI_EINVAL);
    WANT(PAPI_overflow(set, inst, -1, 0, handler), PAPI_EINVAL);
    WANT(PAPI_overflow(set, inst, 1000, 0, NULL), PAPI_EINVAL);
    WANT(PAPI_overflow(7, inst, 1000, 0, handler), PAPI_ENOEVST);
    WANT(PAPI_overflow(set, inst, 1000, 0, handler), PAPI_OK);
    WANT(PAPI_overflow(set, cycles, 0, 0, handler), PAPI_EINVAL);
    WANT(state_of(set), PAPI_STOPPED | PAPI_OVERFLOWING);
    WANT(PAPI_overflow(set, inst, 0, 0, handler), PAPI_OK);
    WANT(PAPI_overflow(set, inst, 0, 0, handler), PAPI_EINVAL);
    WANT(state_of(set), PAPI_STOPPED);

    /* a profile alone calls no handler that was there before */
    WANT(PAPI_profil(buckets, sizeof buckets, 0, 2, set, inst, 256, PAPI_PROFIL_BUCKET_32),
         PAPI_OK);
    WANT(state_of(set), PAPI_STOPPED | PAPI_OVERFLOWING | PAPI_PROFILING);
    WANT(PAPI_overflow(set, cycles, 300, 0, handler), PAPI_OK);
    count(set);
    WANT(told, 0);
    WANT(buckets[0] > 0, 1);

    /* the threshold of the event is gone, and its profile with it */
    unsigned before = buckets[0];
    WANT(PAPI_profil(buckets, sizeof buckets, 0, 2, set, inst, 0, PAPI_PROFIL_BUCKET_32), PAPI_OK);
    WANT(PAPI_profil(buckets, sizeof buckets, 0, 2, set, inst, 0, PAPI_PROFIL_BUCKET_32),
         PAPI_EINVAL);
    WANT(state_of(set), PAPI_STOPPED | PAPI_OVERFLOWING);
    WANT(PAPI_overflow(set, cycles, 0, 0, handler), PAPI_OK);
    WANT(state_of(set), PAPI_STOPPED);
    PAPI_shutdown();
    WANT(PAPI_library_init(PAPI_VER_CURRENT), PAPI_VER_CURRENT);
    set = PAPI_NULL;
    WANT(PAPI_create_eventset(&set), PAPI_OK);
    WANT(PAPI_event_name_to_code("INST_RETIRED", &inst), PAPI_OK);
    WANT(PAPI_add_event(set, inst), PAPI_OK);
    WANT(PAPI_profil(buckets, sizeof buckets, 0, 2, set, inst, 256, PAPI_PROFIL_BUCKET_32),
         PAPI_OK);
    WANT(PAPI_overflow(set, inst, 300, 0, handler), PAPI_OK);
    WANT(PAPI_overflow(set, inst, 0, 0, handler), PAPI_OK);
    count(set);
    WANT(told, 0);
    WANT(buckets[0], before);

    /* and an event that is added again after it was removed has neither */
    WANT(PAPI_overflow(set, inst, 300, 0, handler), PAPI_OK);
    WANT(PAPI_remove_event(set, inst), PAPI_OK);
    WANT(PAPI_add_event(set, inst), PAPI_OK);
    WANT(state_of(set), PAPI_STOPPED);

    /* what an event has goes with it to another place */
    PAPI_shutdown();
    WANT(PAPI_library_init(PAPI_VER_CURRENT), PAPI_VER_CURRENT);
    set = PAPI_NULL;
    WANT(PAPI_create_eventset(&set), PAPI_OK);
    WANT(PAPI_add_named_event(set, "CYCLES"), PAPI_OK);
    WANT(PAPI_add_named_event(set, "INST_RETIRED"), PAPI_OK);
    WANT(PAPI_event_name_to_code("INST_RETIRED", &inst), PAPI_OK);
    WANT(PAPI_overflow(set, inst, 1000, 0, handler), PAPI_OK);
    WANT(PAPI_remove_named_event(set, "CYCLES"), PAPI_OK);
    count(set);
    WANT(told, 2);
    PAPI_shutdown();
    puts("each as wanted");
    return 0;
}
