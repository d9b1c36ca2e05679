/* Routines for Fortran, called as its compilers call them: each number of the hardware is the one
 * of its name, and a name of any length is taken. */
#include "papi.h"
#include "wanted.h"
#include <string.h>

#define LONGEST 3000 /* more than there is room for */

void papif_get_hardware_info_(int *cpus, int *nodes, int *all_cpus, int *vendor, char *vendor_text,
                              int *model, char *model_text, float *revision, float *mhz,
                              int vendor_length, int model_length);
void papif_event_name_to_code_(const char *name, int *event, int *check, int length);

/* The library fills this once, and keeps what a program writes there. */
static void hardware(void) {
    PAPI_hw_info_t *kept = (PAPI_hw_info_t *)PAPI_get_hardware_info();
    int cpus, nodes, all_cpus, vendor, model;
    float revision, mhz;
    char vendor_text[4], model_text[8];
    WANT(kept != NULL, 1);
    kept->ncpu = 2, kept->nnodes = 3, kept->totalcpus = 4, kept->vendor = 5, kept->model = 6,
    kept->revision = 7, kept->cpu_max_mhz = 8;
    strcpy(kept->vendor_string, "maker");
    strcpy(kept->model_string, "model");
    papif_get_hardware_info_(&cpus, &nodes, &all_cpus, &vendor, vendor_text, &model, model_text,
                             &revision, &mhz, sizeof vendor_text, sizeof model_text);
    const int all[] = { cpus, nodes, all_cpus, vendor, model, (int)revision, (int)mhz };
    for (int i = 0; i < 7; i++) WANT(all[i], i + 2);
    WANT(memcmp(vendor_text, "make", sizeof vendor_text), 0);
    WANT(memcmp(model_text, "model   ", sizeof model_text), 0);
}

/* Blanks behind a name are none of it. The sanitizers see one byte too many. */
static void names(void) {
    static char text[LONGEST];
    int event = 0, check = 0;
    memset(text, ' ', sizeof text);
    memcpy(text, "PAPI_TOT_INS", 12);
    for (int length = 0; length <= LONGEST; length++) {
        papif_event_name_to_code_(text, &event, &check, length);
        WANT(check, length < 12 ? PAPI_ENOEVNT : PAPI_OK);
        WANT(event, length < 12 ? 0 : PAPI_TOT_INS);
    }
    memset(text, 'x', sizeof text);
    for (int length = 1; length <= LONGEST; length++) {
        papif_event_name_to_code_(text, &event, &check, length);
        WANT(check, PAPI_ENOEVNT);
    }
}

int main(void) {
    WANT(PAPI_library_init(PAPI_VER_CURRENT), PAPI_VER_CURRENT);
    names();
    hardware();
    puts("each number and text is its own");
    PAPI_shutdown();
    return 0;
}
