/* As much as there can be: a set of 32 events, of which the first is taken out, and regions that
 * count on 16 components, or on one beside a set of the program. */
#define _DEFAULT_SOURCE
#include "papi.h"
#include "wanted.h"
#include <dirent.h>
#include <string.h>
#include <sys/wait.h>
#include <unistd.h>

#define EVENTS 32
#define COMPONENTS 16
#define THRESHOLD 256

static char folder[] = "/tmp/kistalub_full_XXXXXX", unit[64];
static long long passed;

static void handler(int set, void *address, long long vector, void *context) {
    (void)set; (void)address; (void)context;
    passed |= vector;
}

static void write_unit(int components, int events) {
    FILE *f = fopen(unit, "w");
    WANT(f != NULL, 1);
    for (int c = 0; c < components; c++) {
        fprintf(f, "COMPONENT,c%d,p%d\n", c, c);
        for (int e = 0; e < events; e++) fprintf(f, "COUNTER,C%d,48,P\n", e);
        for (int e = 0; e < events; e++)
            fprintf(f, "EVENT,E%d_%d,%02x,C%d,An event\n", c, e, 0xc0 + e, e);
    }
    WANT(fclose(f), 0);
}

/* What belongs to the last event follows it. */
static void take_out_the_first(void) {
    char name[16];
    int set = PAPI_NULL, event;
    long long values[EVENTS];
    write_unit(1, EVENTS);
    WANT(PAPI_library_init(PAPI_VER_CURRENT), PAPI_VER_CURRENT);
    WANT(PAPI_create_eventset(&set), PAPI_OK);
    for (int e = 0; e < EVENTS; e++) {
        snprintf(name, sizeof name, "E0_%d", e);
        WANT(PAPI_add_named_event(set, name), PAPI_OK);
    }
    WANT(PAPI_event_name_to_code("E0_31", &event), PAPI_OK);
    WANT(PAPI_overflow(set, event, THRESHOLD, 0, handler), PAPI_OK);
    WANT(PAPI_remove_named_event(set, "E0_0"), PAPI_OK);
    WANT(PAPI_start(set), PAPI_OK);
    WANT(kistalub_go(2, NULL), PAPI_OK);
    WANT(passed, 1LL << (EVENTS - 2));
    WANT(PAPI_stop(set, values), PAPI_OK);
    WANT(values[EVENTS - 2], 400);
    PAPI_shutdown();
}

/* The files of the folder below this one, which each have a text: how many. */
static int take_files(const char *below, const char *text) {
    static char bytes[65536];
    char in[512], file[1024];
    int n = 0;
    snprintf(in, sizeof in, "%s/%s", folder, below);
    DIR *d = opendir(in);
    for (struct dirent *e; d && (e = readdir(d));) {
        if (e->d_name[0] == '.') continue;
        snprintf(file, sizeof file, "%s/%s", in, e->d_name);
        FILE *f = fopen(file, "r");
        WANT(f != NULL, 1);
        bytes[fread(bytes, 1, sizeof bytes - 1, f)] = 0;
        WANT(fclose(f), 0);
        n += strstr(bytes, text) != NULL;
        WANT(unlink(file), 0);
    }
    if (d) closedir(d);
    WANT(rmdir(in), 0);
    return n;
}

/* A region counts these events, in a process that has a set with an event of its own. The regions
 * are written when it ends. */
static void count(const char *names, const char *own) {
    int status, set = PAPI_NULL, event, left = 0, number = 1;
    setenv("PAPI_EVENTS", names, 1);
    setenv("PAPI_OUTPUT_DIRECTORY", folder, 1);
    fflush(stdout);
    const pid_t child = fork();
    if (child == 0) {
        WANT(PAPI_library_init(PAPI_VER_CURRENT), PAPI_VER_CURRENT);
        WANT(PAPI_create_eventset(&set), PAPI_OK);
        WANT(PAPI_add_named_event(set, own), PAPI_OK);
        WANT(PAPI_hl_region_begin("region"), PAPI_OK);
        WANT(PAPI_hl_region_end("region"), PAPI_OK);
        WANT(PAPI_hl_stop(), PAPI_OK);
        WANT(PAPI_event_name_to_code(own, &event), PAPI_OK);
        WANT(PAPI_list_events(set, &left, &number), PAPI_OK);
        WANT(number, 1);
        WANT(left, event);
        PAPI_shutdown();
        exit(0);
    }
    WANT(waitpid(child, &status, 0), child);
    WANT(status, 0);
}

static void count_on_components(void) {
    char names[512] = "";
    write_unit(COMPONENTS, 1);
    for (int c = 0; c < COMPONENTS; c++) sprintf(names + strlen(names), "%sE%d_0", c ? "," : "", c);
    count(names, "E15_0");
    WANT(take_files("papi_hl_output", "\"E15_0\""), 1);
    count("E0_0", "E15_0");
    WANT(take_files("papi_hl_output", "\"E15_0\""), 0);
}

int main(void) {
    char stream[64];
    WANT(mkdtemp(folder) != NULL, 1);
    snprintf(unit, sizeof unit, "%s/unit", folder);
    snprintf(stream, sizeof stream, "%s/stream", folder);
    FILE *f = fopen(stream, "w");
    WANT(f != NULL, 1);
    fputs("0 df 00 u 200 1\n0 df 00 u 200 1\n", f);
    WANT(fclose(f), 0);
    setenv("KISTALUB_UNIT", unit, 1);
    setenv("KISTALUB_STREAM", stream, 1);
    take_out_the_first();
    count_on_components();
    WANT(unlink(unit) + unlink(stream), 0);
    WANT(rmdir(folder), 0);
    puts("all of it counts");
    return 0;
}
