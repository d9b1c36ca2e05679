/* Where the high level writes what its regions counted, and what they count: each case is a process
 * of its own. */
#define _DEFAULT_SOURCE
#include "papi.h"
#include "wanted.h"
#include <dirent.h>
#include <pthread.h>
#include <signal.h>
#include <stdint.h>
#include <string.h>
#include <sys/resource.h>
#include <sys/stat.h>
#include <sys/wait.h>
#include <time.h>
#include <unistd.h>
#include <utime.h>

#define COMPONENTS 3
#define EACH 25

static char above[] = "/tmp/kistalub_files_XXXXXX";
static char text[65536];

/* The path of a file of the folder. */
static const char *in(const char *name) {
    static char path[512];
    snprintf(path, sizeof path, "%s/%s", above, name);
    return path;
}

static int is_there(const char *name) { return access(in(name), F_OK) == 0; }

/* Reads a file, which has a text in so many places. */
static int times(const char *name, const char *what) {
    FILE *f = fopen(in(name), "r");
    int n = 0;
    if (!f) return -1;
    size_t length = fread(text, 1, sizeof text - 1, f);
    text[length] = 0;
    fclose(f);
    for (const char *at = text; (at = strstr(at, what)); at++) n++;
    return n;
}

static void region(const char *name) {
    WANT(PAPI_hl_region_begin(name), PAPI_OK);
    WANT(kistalub_go(1, NULL), PAPI_OK);
    WANT(PAPI_hl_region_end(name), PAPI_OK);
}

static void run(void (*work)(void)) {
    int status;
    fflush(stdout);
    pid_t child = fork();
    if (child == 0) {
        work();
        PAPI_shutdown();
        exit(0);
    }
    WANT(waitpid(child, &status, 0), child);
    WANT(status, 0);
}

/* Takes a folder with its files away. */
static void take_away(const char *name) {
    char folder[512];
    snprintf(folder, sizeof folder, "%s", in(name));
    DIR *d = opendir(folder);
    for (struct dirent *e; d && (e = readdir(d));) {
        char file[1024];
        snprintf(file, sizeof file, "%s/%s", folder, e->d_name);
        if (e->d_name[0] != '.') unlink(file);
    }
    if (d) closedir(d);
    rmdir(folder);
}

static int folders(void) {
    int n = 0;
    DIR *d = opendir(above);
    for (struct dirent *e; d && (e = readdir(d));) n += e->d_name[0] != '.';
    if (d) closedir(d);
    return n;
}

/* The folder is that of the begin, whatever the program does then; an earlier one is renamed at the
 * begin. */
static void goes_elsewhere(void) {
    unsetenv("PAPI_OUTPUT_DIRECTORY");
    WANT(chdir(above), 0);
    region("r");
    WANT(chdir("/"), 0);
}

static void goes_elsewhere_by_name(void) {
    setenv("PAPI_OUTPUT_DIRECTORY", "named", 1);
    WANT(chdir(above), 0);
    region("r");
    WANT(chdir("/"), 0);
}

/* Another process of the program ends while this one runs, and a while passes before this one
 * does. */
static void ends_later(void) {
    const struct utimbuf long_ago = { 1, 1 };
    region("r");
    WANT(mkdir(in("papi_hl_output"), 0700), 0);
    WANT(utime(in("papi_hl_output"), &long_ago), 0);
}

static void begins_later(void) {
    const struct utimbuf long_ago = { 1, 1 };
    WANT(mkdir(in("papi_hl_output"), 0700), 0);
    WANT(utime(in("papi_hl_output"), &long_ago), 0);
    region("r");
}

static void leaves_a_region(void) { WANT(PAPI_hl_region_begin("r"), PAPI_OK); }

static void paths(void) {
    run(leaves_a_region);
    WANT(is_there("papi_hl_output"), 0);
    run(goes_elsewhere);
    WANT(is_there("papi_hl_output/rank_000000.json"), 1);
    take_away("papi_hl_output");
    run(goes_elsewhere_by_name);
    WANT(is_there("named/papi_hl_output/rank_000000.json"), 1);
    take_away("named/papi_hl_output");
    take_away("named");
    run(ends_later);
    WANT(folders(), 1);
    WANT(is_there("papi_hl_output/rank_000000.json"), 1);
    take_away("papi_hl_output");
    run(begins_later);
    WANT(folders(), 2);
    WANT(is_there("papi_hl_output/rank_000000.json"), 1);
}

/* A region that ends after the counters were stopped has the values of the stop. */
static void stops_inside(void) {
    WANT(PAPI_hl_region_begin("r"), PAPI_OK);
    WANT(kistalub_go(1, NULL), PAPI_OK);
    WANT(PAPI_hl_stop(), PAPI_OK);
    WANT(kistalub_go(1, NULL), PAPI_OK);
    WANT(PAPI_hl_read("r"), PAPI_OK);
    WANT(PAPI_hl_region_end("r"), PAPI_OK);
    region("s");
}

static void rates_inside(void) {
    float real, own, rate;
    long long events;
    WANT(PAPI_hl_region_begin("r"), PAPI_OK);
    WANT(kistalub_go(1, NULL), PAPI_OK);
    WANT(PAPI_ipc(&real, &own, &events, &rate), PAPI_OK);
    WANT(PAPI_hl_region_end("r"), PAPI_OK);
}

static void stops(void) {
    run(stops_inside);
    WANT(times("papi_hl_output/rank_000000.json", "\"region_value\":\"255\""), 1);
    WANT(times("papi_hl_output/rank_000000.json", "\"name\":\"s\""), 1);
    take_away("papi_hl_output");
    run(rates_inside);
    WANT(times("papi_hl_output/rank_000000.json", "\"INST_RETIRED\":\"255\""), 1);
    take_away("papi_hl_output");
}

static void counts_a_region(void) { region("r"); }

/* Components with a counter for each of their events. */
static void write_unit(void) {
    FILE *f = fopen(in("unit"), "w");
    WANT(f != NULL, 1);
    for (int c = 0; c < COMPONENTS; c++) {
        fprintf(f, "COMPONENT,part%d,pmu%d\n", c, c);
        for (int i = 0; i < EACH; i++) fprintf(f, "COUNTER,P%d,48,P\n", i);
        for (int i = 0; i < EACH; i++) fprintf(f, "EVENT,E%d,%02x,P%d,An event\n", i, i + 1, i);
    }
    WANT(fclose(f), 0);
}

/* More events than there are counters, some of them multiplexed; none that are named; and many. */
static void events(void) {
    char many[4096] = "", lab[4096];
    snprintf(lab, sizeof lab, "%s", getenv("KISTALUB_UNIT"));
    setenv("PAPI_EVENTS", "INST_RETIRED,CYCLES,BR_MISP,CACHE,MEM:LOADS", 1);
    setenv("PAPI_MULTIPLEX", "1", 1);
    run(counts_a_region);
    WANT(times("papi_hl_output/rank_000000.json", "\"component\":\"perf_event\""), 5);
    take_away("papi_hl_output");
    unsetenv("PAPI_MULTIPLEX");
    /* The second one is of another component. */
    setenv("PAPI_EVENTS", "CYCLES,PACKETS,INST_RETIRED", 1);
    run(counts_a_region);
    WANT(times("papi_hl_output/rank_000000.json", "\"INST_RETIRED\":\"255\""), 1);
    WANT(times("papi_hl_output/rank_000000.json", "\"PACKETS\":\"0\""), 1);
    take_away("papi_hl_output");
    unsetenv("PAPI_EVENTS");
    run(counts_a_region);
    WANT(times("papi_hl_output/rank_000000.json", "\"component\""), 1);
    WANT(times("papi_hl_output/rank_000000.json", "\"PAPI_TOT_CYC\":{"), 1);
    take_away("papi_hl_output");
    write_unit();
    for (int i = 0; i < COMPONENTS * EACH; i++)
        sprintf(many + strlen(many), "pmu%d::E%d,", i / EACH, i % EACH);
    setenv("PAPI_EVENTS", many, 1);
    setenv("KISTALUB_UNIT", in("unit"), 1);
    run(counts_a_region);
    WANT(times("papi_hl_output/rank_000000.json", "\"component\""), COMPONENTS * EACH);
    take_away("papi_hl_output");
    WANT(unlink(in("unit")), 0);
    setenv("PAPI_EVENTS", "INST_RETIRED", 1);
    setenv("KISTALUB_UNIT", lab, 1);
}

/* A folder that is as new as those of processes that begin later. */
static void is_of_now(const char *name) {
    const struct utimbuf later = { time(NULL) + 1000, time(NULL) + 1000 };
    WANT(utime(in(name), &later), 0);
}

/* The file of a rank is there: the next one has a name of the same rank. */
static void has_two(const char *rank, const char *first, const char *second, const char *other) {
    setenv("SLURM_PROCID", rank, 1);
    run(counts_a_region);
    is_of_now("papi_hl_output");
    run(counts_a_region);
    WANT(is_there(first), 1);
    WANT(is_there(second), 1);
    WANT(is_there(other), 0);
    take_away("papi_hl_output");
    unsetenv("SLURM_PROCID");
}

/* The rank is that which the starter of an MPI program says. */
static void ranks(void) {
    static const char *const starters[] = { "OMPI_COMM_WORLD_RANK", "ALPS_APP_PE", "PMI_RANK",
                                            "SLURM_PROCID" };
    for (int i = 0; i < 4; i++) {
        setenv(starters[i], "7", 1);
        run(counts_a_region);
        WANT(is_there("papi_hl_output/rank_000007.json"), 1);
        take_away("papi_hl_output");
        unsetenv(starters[i]);
    }
    has_two("3", "papi_hl_output/rank_000003.json", "papi_hl_output/rank_000003-2.json",
            "papi_hl_output/rank_000004.json");
    has_two("0", "papi_hl_output/rank_000000.json", "papi_hl_output/rank_000000-2.json",
            "papi_hl_output/rank_000001.json");
}

static struct rlimit room;

static void give_room(void) { setrlimit(RLIMIT_FSIZE, &room); }

/* The file has more than the 200 bytes that may be written. */
static void has_little_room(void) {
    struct rlimit little;
    WANT(freopen(in("said"), "w", stderr) != NULL, 1);
    signal(SIGXFSZ, SIG_IGN);
    WANT(getrlimit(RLIMIT_FSIZE, &room), 0);
    little = room;
    little.rlim_cur = 200;
    WANT(atexit(give_room), 0); /* after the file is written */
    WANT(setrlimit(RLIMIT_FSIZE, &little), 0);
    region("r");
}

static void full(void) {
    char line[1024];
    run(has_little_room);
    snprintf(line, sizeof line, "kistalub: PAPI_OUTPUT_DIRECTORY: cannot write: %s\n",
             in("papi_hl_output/rank_000000.json"));
    WANT(times("said", line), 1);
    WANT(strcmp(text, line), 0);
    take_away("papi_hl_output");
    WANT(unlink(in("said")), 0);
}

static void *counts_by_name(void *name) {
    region(name);
    return NULL;
}

/* Threads of libraries that come one after the other have the same number. */
static void is_in_libraries(void) {
    static const char *const names[] = { "last_name", "first_name" };
    for (int i = 0; i < 2; i++) {
        pthread_t thread;
        WANT(PAPI_library_init(PAPI_VER_CURRENT), PAPI_VER_CURRENT);
        WANT(pthread_create(&thread, NULL, counts_by_name, (void *)(uintptr_t)names[i]), 0);
        WANT(pthread_join(thread, NULL), 0);
        PAPI_shutdown();
    }
}

/* They are written in the order in which they began. */
static void order(void) {
    run(is_in_libraries);
    WANT(times("papi_hl_output/rank_000000.json", "last_name"), 1);
    WANT(strstr(text, "last_name") < strstr(text, "first_name"), 1);
    take_away("papi_hl_output");
}

int main(void) {
    WANT(mkdtemp(above) != NULL, 1);
    setenv("PAPI_OUTPUT_DIRECTORY", above, 1);
    setenv("PAPI_EVENTS", "INST_RETIRED", 1);
    ranks();
    full();
    order();
    stops();
    events();
    paths();
    char command[512];
    snprintf(command, sizeof command, "rm -r '%s'", above);
    WANT(system(command), 0);
    puts("each file is where it is wanted");
    return 0;
}
