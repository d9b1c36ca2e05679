/* What the regions of the high level have counted, as PAPI's JSON file: PAPI_hl_region_end(3). */
#include "posix.h"
#include "environment.h"
#include "papi.h"
#include "regions.h"

#include <errno.h>
#include <fcntl.h>
#include <stdio.h>
#include <stdlib.h>
#include <string.h>
#include <sys/stat.h>
#include <time.h>
#include <unistd.h>

#define RANKS 1000000
#define OUTPUT "papi_hl_output"

static const char *const fixed_names[FIXED_VALUES] = { "cycles", "real_time_nsec" };

/* A new line, and two spaces for each level. */
static void line(FILE *f, int level) { fprintf(f, "\n%*s", 2 * level, ""); }

/* A text in quotes. */
static void quoted(FILE *f, const char *text) {
    putc('"', f);
    for (; *text; text++) {
        if (*text == '"' || *text == '\\') fprintf(f, "\\%c", *text);
        else if ((unsigned char)*text < ' ') fprintf(f, "\\u%04x", (unsigned char)*text);
        else putc(*text, f);
    }
    putc('"', f);
}

static void write_definitions(FILE *f, const counted_events *counted) {
    line(f, 1);
    fputs("\"event_definitions\":{", f);
    for (int i = 0; i < counted->event_count; i++) {
        const region_event *event = &counted->events[i];
        line(f, 2);
        quoted(f, event->name);
        fputs(":{", f);
        line(f, 3);
        fputs("\"component\":", f);
        quoted(f, counted->groups[event->group].name);
        putc(',', f);
        line(f, 3);
        fprintf(f, "\"type\":\"%s\"", event->is_instant ? "instant" : "delta");
        line(f, 2);
        fputs(i + 1 < counted->event_count ? "}," : "}", f);
    }
    line(f, 1);
    fputs("},", f);
}

/* A value of a region, with those of its readings if there are any. */
static void write_value(FILE *f, const counted_events *counted, const region *r, int place) {
    long long value = kl_counted_in(counted, r)[place];
    if (r->read_count == 0) {
        fprintf(f, "\"%lld\"", value);
        return;
    }
    putc('{', f);
    line(f, 6);
    fprintf(f, "\"region_value\":\"%lld\"", value);
    for (int i = 0; i < r->read_count; i++) {
        putc(',', f);
        line(f, 6);
        fprintf(f, "\"read_%d\":\"%lld\"", i + 1, r->reads[i * kl_value_count(counted) + place]);
    }
    line(f, 5);
    putc('}', f);
}

static void write_region(FILE *f, const counted_events *counted, const region *r) {
    line(f, 4);
    fprintf(f, "\"%d\":{", r->id);
    line(f, 5);
    fputs("\"name\":", f);
    quoted(f, kl_region_name(counted, r));
    putc(',', f);
    line(f, 5);
    fprintf(f, "\"parent_region_id\":\"%d\"", r->parent);
    for (int i = 0; i < kl_value_count(counted); i++) {
        putc(',', f);
        line(f, 5);
        quoted(f, i < FIXED_VALUES ? fixed_names[i] : counted->events[i - FIXED_VALUES].name);
        putc(':', f);
        write_value(f, counted, r, i);
    }
    line(f, 4);
    putc('}', f);
}

/* The threads by their order, from 0. */
static void write_threads(FILE *f, const counted_events *counted, const region_thread *threads) {
    int place = 0;
    line(f, 1);
    fputs("\"threads\":{", f);
    for (const region_thread *t = threads; t; t = t->next) {
        line(f, 2);
        fprintf(f, "\"%d\":{", place++);
        line(f, 3);
        fputs("\"regions\":{", f);
        for (const region *r = t->first; r; r = r->next) {
            write_region(f, counted, r);
            if (r->next) putc(',', f);
        }
        line(f, 3);
        putc('}', f);
        line(f, 2);
        fputs(t->next ? "}," : "}", f);
    }
    line(f, 1);
    putc('}', f);
}

static void write_file(FILE *f, const counted_events *counted, const region_thread *threads) {
    putc('{', f);
    line(f, 1);
    fprintf(f, "\"papi_version\":\"%d.%d.%d.%d\",", PAPI_VERSION_MAJOR(PAPI_VERSION),
            PAPI_VERSION_MINOR(PAPI_VERSION), PAPI_VERSION_REVISION(PAPI_VERSION),
            PAPI_VERSION_INCREMENT(PAPI_VERSION));
    line(f, 1);
    fputs("\"cpu_info\":", f);
    quoted(f, counted->cpu);
    putc(',', f);
    line(f, 1);
    fprintf(f, "\"max_cpu_rate_mhz\":\"%d\",", counted->mhz);
    line(f, 1);
    fprintf(f, "\"min_cpu_rate_mhz\":\"%d\",", counted->mhz);
    write_definitions(f, counted);
    write_threads(f, counted, threads);
    fputs("\n}\n", f);
}

/* Makes a folder and those above it. */
static int make_folders(char *path) {
    for (char *at = path + 1;; at++)
        if (*at == '/' || *at == 0) {
            char kept = *at;
            *at = 0;
            int code = mkdir(path, S_IRWXU);
            *at = kept;
            if (code && errno != EEXIST) return PAPI_ESYS;
            if (kept == 0) return PAPI_OK;
        }
}

/* A folder of an earlier process gets the time behind its name. One of this second is that of
 * another process of the same program. */
static void move_earlier(const char *folder) {
    char stamp[32];
    struct stat found;
    time_t now = time(NULL);
    struct tm parts;
    if (stat(folder, &found) || !S_ISDIR(found.st_mode) || found.st_mtime >= now ||
        !localtime_r(&now, &parts))
        return;
    strftime(stamp, sizeof stamp, "%Y%m%d-%H%M%S", &parts);
    size_t room = strlen(folder) + sizeof stamp + 1;
    char *moved = malloc(room);
    if (!moved) return;
    snprintf(moved, room, "%s-%s", folder, stamp);
    if (rename(folder, moved)) kl_region_say("Warning: cannot rename ", folder);
    free(moved);
}

/* The folder for the output stays the same if the program goes to another one. */
int kl_find_region_folder(counted_events *counted) {
    const char *above = kl_variable("PAPI_OUTPUT_DIRECTORY");
    char *here = above && *above == '/' ? NULL : getcwd(NULL, 0);
    if (!above || !*above) above = ".";
    size_t room = (here ? strlen(here) : 0) + strlen(above) + sizeof "//" OUTPUT;
    counted->folder = malloc(room);
    if (counted->folder)
        snprintf(counted->folder, room, "%s%s%s/" OUTPUT, here ? here : "", here ? "/" : "", above);
    free(here);
    if (!counted->folder) return PAPI_ENOMEM;
    move_earlier(counted->folder);
    return PAPI_OK;
}

/* The number of the process among those of an MPI program, or -1 where it is none. */
static int rank_of_process(void) {
    static const char *const names[] = { "OMPI_COMM_WORLD_RANK", "ALPS_APP_PE", "PMI_RANK",
                                         "SLURM_PROCID" };
    for (size_t i = 0; i < sizeof names / sizeof *names; i++) {
        const char *rank = kl_variable(names[i]);
        if (rank) return atoi(rank) < 0 ? 0 : atoi(rank) % RANKS;
    }
    return -1;
}

/* Opens the first file that is not there yet: of a rank its own, which may be the second of its
 * name, and otherwise that of the least number. */
static FILE *open_file(char *path, size_t room, const char *folder) {
    const int rank = rank_of_process();
    for (int next = 0; next < RANKS; next++) {
        if (rank < 0 || next == 0)
            snprintf(path, room, "%s/rank_%06d.json", folder, rank < 0 ? next : rank);
        else snprintf(path, room, "%s/rank_%06d-%d.json", folder, rank, next + 1);
        int file = open(path, O_WRONLY | O_CREAT | O_EXCL | O_CLOEXEC,
                        S_IRUSR | S_IWUSR | S_IRGRP | S_IROTH);
        FILE *f = file >= 0 ? fdopen(file, "w") : NULL;
        if (file >= 0 && !f) close(file);
        if (file >= 0) return f;
        if (errno != EEXIST) return NULL;
    }
    return NULL;
}

/* Prints a file: PAPI_REPORT. */
static void report(const char *path) {
    FILE *f = fopen(path, "r");
    int c;
    fputs("\n\nPAPI-HL Output:\n", stdout);
    while (f && (c = getc(f)) != EOF) putchar(c);
    putchar('\n');
    if (f) fclose(f);
}

/* Whether some region began, and each that began has ended. */
static int are_matched(const region_thread *threads) {
    int begun = 0, ended = 0;
    for (const region_thread *t = threads; t; t = t->next) {
        begun += t->begun;
        ended += t->ended;
    }
    return begun && begun == ended;
}

static void write_named(const counted_events *counted, const region_thread *threads, char *path,
                        size_t room) {
    FILE *f =
        make_folders(counted->folder) == PAPI_OK ? open_file(path, room, counted->folder) : NULL;
    if (!f) {
        fprintf(stderr, "kistalub: PAPI_OUTPUT_DIRECTORY: cannot write: %s\n", counted->folder);
        return;
    }
    write_file(f, counted, threads);
    int is_whole = !ferror(f);
    if (fclose(f) || !is_whole)
        fprintf(stderr, "kistalub: PAPI_OUTPUT_DIRECTORY: cannot write: %s\n", path);
    else if (kl_variable("PAPI_REPORT")) report(path);
}

void kl_write_regions(const counted_events *counted, const region_thread *threads) {
    if (!are_matched(threads)) {
        if (threads) kl_region_say("Warning: nothing is written, since a region has not ended", "");
        return;
    }
    size_t room = strlen(counted->folder) + sizeof "/rank_-.json" + 2 * sizeof "1000000";
    char *path = malloc(room);
    if (path) write_named(counted, threads, path, room);
    free(path);
}
