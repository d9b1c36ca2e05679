/* A library ends while a rate or regions are counted, and another one begins: these begin anew
 * there, and leave the program's own sets alone. */
#define _DEFAULT_SOURCE
#include "papi.h"
#include "wanted.h"
#include <string.h>
#include <unistd.h>

#define INSTRUCTIONS 1020
#define HALF 4

static char folder[] = "/tmp/kistalub_begun_XXXXXX";

static void ask_rate(long long wanted) {
    float real, own, rate;
    long long events;
    WANT(PAPI_ipc(&real, &own, &events, &rate), PAPI_OK);
    WANT(events, wanted);
}

/* A library whose first set counts. */
static int begin(void) {
    int set = PAPI_NULL;
    WANT(PAPI_library_init(PAPI_VER_CURRENT), PAPI_VER_CURRENT);
    WANT(PAPI_create_eventset(&set), PAPI_OK);
    WANT(PAPI_add_named_event(set, "INST_RETIRED"), PAPI_OK);
    WANT(PAPI_start(set), PAPI_OK);
    WANT(kistalub_go(HALF, NULL), PAPI_OK);
    return set;
}

static void end(int set) {
    long long count;
    WANT(PAPI_num_events(set), 1);
    WANT(PAPI_stop(set, &count), PAPI_OK);
    WANT(count, INSTRUCTIONS);
    PAPI_shutdown();
}

static void with_a_rate(void) {
    float real, own, rate;
    long long events;
    WANT(PAPI_library_init(PAPI_VER_CURRENT), PAPI_VER_CURRENT);
    ask_rate(0);
    WANT(kistalub_go(HALF, NULL), PAPI_OK);
    ask_rate(INSTRUCTIONS);
    PAPI_shutdown();
    int set = begin();
    WANT(PAPI_rate_stop(), PAPI_ENOEVNT);
    WANT(PAPI_ipc(&real, &own, &events, &rate), PAPI_EISRUN);
    end(set);
    WANT(PAPI_library_init(PAPI_VER_CURRENT), PAPI_VER_CURRENT);
    ask_rate(0);
    WANT(kistalub_go(HALF, NULL), PAPI_OK);
    ask_rate(INSTRUCTIONS);
    WANT(PAPI_rate_stop(), PAPI_OK);
    PAPI_shutdown();
}

static void with_regions(void) {
    WANT(PAPI_hl_region_begin("whole"), PAPI_OK);
    WANT(kistalub_go(HALF, NULL), PAPI_OK);
    WANT(PAPI_hl_region_end("whole"), PAPI_OK);
    PAPI_shutdown();
    int set = begin();
    WANT(PAPI_hl_stop(), PAPI_ENOEVNT);
    end(set);
    WANT(PAPI_hl_region_begin("again"), PAPI_OK);
    WANT(kistalub_go(HALF, NULL), PAPI_OK);
    WANT(PAPI_hl_region_end("again"), PAPI_OK);
    PAPI_shutdown();
}

/* The file has both regions, each with its own instructions. */
static void look_at_output(void) {
    char text[4096] = "";
    FILE *f = fopen("papi_hl_output/rank_000000.json", "r");
    int regions = 0;
    WANT(f != NULL, 1);
    while (fgets(text, sizeof text, f)) regions += !!strstr(text, "\"INST_RETIRED\":\"1020\"");
    fclose(f);
    WANT(regions, 2);
    WANT(unlink("papi_hl_output/rank_000000.json") + rmdir("papi_hl_output") + chdir("/") +
             rmdir(folder),
         0);
    puts("each counts its own");
}

int main(void) {
    WANT(mkdtemp(folder) != NULL, 1);
    WANT(chdir(folder), 0);
    atexit(look_at_output);
    setenv("PAPI_EVENTS", "INST_RETIRED", 1);
    with_a_rate();
    with_regions();
    return 0;
}
