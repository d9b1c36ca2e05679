/* A code of an event is the process's: each thread may use what another one learned, in whatever
 * order each learned its own. So is the number of a set, which no other thread has. */
#include "papi.h"
#include "wanted.h"
#include <pthread.h>
#include <string.h>

static int inst, cycles, loads, main_set = PAPI_NULL;

static void *work(void *unused) {
    int set = PAPI_NULL, code, listed[3], number = 3;
    char name[PAPI_MAX_STR_LEN];
    WANT(PAPI_create_eventset(&set), PAPI_OK);
    WANT(set, main_set + 1);
    WANT(PAPI_num_events(main_set), PAPI_ENOEVST);
    WANT(PAPI_add_event(main_set, inst), PAPI_ENOEVST);
    WANT(PAPI_destroy_eventset(&main_set), PAPI_ENOEVST);
    /* this thread's library meets them in another order, and one of them without its code */
    WANT(PAPI_add_named_event(set, "CYCLES"), PAPI_OK);
    WANT(PAPI_event_name_to_code("BR_INST:TAKEN", &code), PAPI_OK);
    WANT(PAPI_event_code_to_name(inst, name), PAPI_OK);
    WANT(strcmp(name, "lab::INST_RETIRED"), 0);
    WANT(PAPI_event_code_to_name(loads, name), PAPI_OK);
    WANT(strcmp(name, "lab::MEM:LOADS"), 0);
    WANT(PAPI_event_name_to_code("INST_RETIRED", &code), PAPI_OK);
    WANT(code, inst);
    WANT(PAPI_event_name_to_code("CYCLES", &code), PAPI_OK);
    WANT(code, cycles);
    WANT(PAPI_add_event(set, inst), PAPI_OK);
    WANT(PAPI_list_events(set, listed, &number), PAPI_OK);
    WANT(number, 2);
    WANT(listed[0], cycles);
    WANT(listed[1], inst);
    /* with too little room as many as it takes, and without any how many there are */
    number = 1;
    listed[1] = 0;
    WANT(PAPI_list_events(set, listed, &number), PAPI_OK);
    WANT(number, 1);
    WANT(listed[1], 0);
    number = 0;
    WANT(PAPI_list_events(set, NULL, &number), PAPI_OK);
    WANT(number, 2);
    number = 1;
    WANT(PAPI_list_events(set, NULL, &number), PAPI_EINVAL);
    WANT(PAPI_list_events(set, NULL, NULL), PAPI_EINVAL);
    WANT(PAPI_remove_event(set, cycles), PAPI_OK);
    WANT(PAPI_event_name_to_code("REF", &code), PAPI_OK);
    WANT(PAPI_cleanup_eventset(set), PAPI_OK);
    WANT(PAPI_destroy_eventset(&set), PAPI_OK);
    return unused;
}

/* A name of Fortran that is longer than any is cut, and so it is the name of no event. */
void papif_query_named_event_(const char *name, int *check, int length);
static void long_name_of_fortran(void) {
    static char name[100000];
    int check = PAPI_OK;
    memset(name, 'A', sizeof name);
    papif_query_named_event_(name, &check, sizeof name);
    WANT(check, PAPI_ENOEVNT);
}

int main(void) {
    pthread_t thread;
    char name[PAPI_MAX_STR_LEN];
    int reference, others[3] = { PAPI_NULL, PAPI_NULL, PAPI_NULL };
    WANT(PAPI_library_init(PAPI_VER_CURRENT), PAPI_VER_CURRENT);
    long_name_of_fortran();
    for (int i = 0; i < 3; i++) WANT(PAPI_create_eventset(&others[i]), PAPI_OK);
    WANT(PAPI_create_eventset(&main_set), PAPI_OK);
    WANT(main_set, 3);
    WANT(PAPI_add_event(main_set, PAPI_NATIVE_MASK), PAPI_ENOEVNT);
    WANT(PAPI_event_name_to_code("PAPI_L1_DCM", &inst), PAPI_OK); /* the first preset */
    WANT(inst, PAPI_L1_DCM);
    WANT(PAPI_query_event(PAPI_PRESET_MASK | PAPI_MAX_PRESET_EVENTS), PAPI_ENOTPRESET);
    WANT(PAPI_event_name_to_code("INST_RETIRED", &inst), PAPI_OK);
    WANT(PAPI_event_name_to_code("CYCLES", &cycles), PAPI_OK);
    WANT(PAPI_event_name_to_code("MEM:LOADS", &loads), PAPI_OK);
    for (int i = 0; i < 3; i++) {
        WANT(pthread_create(&thread, NULL, work, NULL), 0);
        WANT(pthread_join(thread, NULL), 0);
    }
    /* what the threads learned is known here */
    WANT(PAPI_event_code_to_name(PAPI_NATIVE_MASK + 3, name), PAPI_OK);
    WANT(strcmp(name, "lab::BR_INST:TAKEN"), 0);
    WANT(PAPI_event_name_to_code("REF", &reference), PAPI_OK);
    WANT(reference, PAPI_NATIVE_MASK + 4);
    WANT(PAPI_event_code_to_name(PAPI_NATIVE_MASK + 5, name), PAPI_ENOEVNT);
    /* the least number that is free is given */
    WANT(PAPI_destroy_eventset(&others[1]), PAPI_OK);
    WANT(PAPI_create_eventset(&others[1]), PAPI_OK);
    WANT(others[1], 1);
    printf("%#x %#x %#x %#x\n", (unsigned)inst, (unsigned)cycles, (unsigned)loads,
           (unsigned)reference);
    PAPI_shutdown();
    return 0;
}
