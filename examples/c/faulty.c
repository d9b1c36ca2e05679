/* What is wrong with a file or a variable goes to standard error, and the call that met it answers
 * PAPI_ESYS. */
#include "papi.h"
#include "wanted.h"
#include <fcntl.h>
#include <pthread.h>
#include <string.h>
#include <sys/stat.h>
#include <unistd.h>

#define STREAM_LIMIT 67108864L
#define TABLE_LIMIT 1048576L

static const char *unit;

static void write_file(const char *name, const char *text) {
    FILE *f = fopen(name, "w");
    WANT(f != NULL, 1);
    WANT(fputs(text, f) >= 0, 1);
    WANT(fclose(f), 0);
}

/* A file of this many bytes, in lines of 64. */
static void write_large(const char *name, long size) {
    FILE *f = fopen(name, "w");
    WANT(f != NULL, 1);
    for (long i = 0; i < size; i++) putc(i % 64 == 63 ? '\n' : '#', f);
    WANT(fclose(f), 0);
}

/* Begins the library over these files. */
static int begin(const char *unit_path, const char *presets, const char *stream) {
    int code = kistalub_init(unit_path, presets, "lab1", stream);
    if (code == PAPI_OK) code = PAPI_library_init(PAPI_VER_CURRENT);
    fprintf(stderr, "%s %s %s: %s\n", unit_path == unit ? "lab.unit" : unit_path,
            presets ? presets : "-", stream, code < 0 ? PAPI_strerror(code) : "begun");
    return code;
}

/* A set that counts instructions, and runs. */
static int started(void) {
    int set = PAPI_NULL;
    WANT(PAPI_create_eventset(&set), PAPI_OK);
    WANT(PAPI_add_named_event(set, "INST_RETIRED"), PAPI_OK);
    WANT(PAPI_start(set), PAPI_OK);
    return set;
}

/* The call that meets a faulty line answers PAPI_ESYS once, and is not made; after that the stream
 * has ended. */
static void read_over(const char *stream, long long wanted) {
    long long count = -1;
    uint32_t went = 0;
    WANT(begin(unit, NULL, stream), PAPI_VER_CURRENT);
    int set = started();
    WANT(PAPI_read(set, &count), PAPI_ESYS);
    WANT(count, -1);
    WANT(PAPI_read(set, &count), PAPI_OK);
    WANT(count, wanted);
    WANT(kistalub_go(9, &went), PAPI_OK);
    WANT(went, 0);
    WANT(PAPI_stop(set, &count), PAPI_OK);
    WANT(count, wanted);
    PAPI_shutdown();
}

static void stop_over(const char *stream, long long wanted) {
    long long count = -1;
    WANT(begin(unit, NULL, stream), PAPI_VER_CURRENT);
    int set = started();
    WANT(PAPI_stop(set, &count), PAPI_ESYS);
    WANT(PAPI_stop(set, &count), PAPI_OK);
    WANT(count, wanted);
    PAPI_shutdown();
}

static void streams(void) {
    char long_line[200];
    memset(long_line, '0', sizeof long_line - 1);
    long_line[sizeof long_line - 1] = 0;
    write_file("field", "0 c0 00 u 5 1\n0 c0 00 x 5 1\n");
    write_file("fields", "# a comment\n0 c0 00 u 5 1\n\n0 c0 00 u 5\n");
    write_file("stamp", "version 2\n0 c0 00 u 5 1 8\n0 c0 00 u 5 1 8\n");
    write_file("long", long_line);
    read_over("field", 5);
    stop_over("fields", 5);
    read_over("stamp", 5);
    read_over("long", 0);
    write_large("larger", STREAM_LIMIT + 1);
    read_over("larger", 0);
}

/* A path that is longer than any of the system's is not cut; the line that names it is not
 * shown. */
static void long_path(void) {
    char path[6000];
    int shown = dup(2), nothing = open("/dev/null", O_WRONLY);
    memset(path, 'p', sizeof path - 1);
    path[sizeof path - 1] = 0;
    WANT(dup2(nothing, 2), 2);
    WANT(close(nothing), 0);
    WANT(begin(unit, NULL, path), PAPI_ESYS);
    WANT(dup2(shown, 2), 2);
    WANT(close(shown), 0);
}

static void unreadable(void) {
    WANT(mkdir("folder", 0700), 0);
    WANT(begin(unit, NULL, "folder"), PAPI_ESYS);
    WANT(begin(unit, NULL, "missing"), PAPI_ESYS);
    long_path();
    WANT(begin("missing", NULL, "field"), PAPI_ESYS);
    WANT(begin("folder", NULL, "field"), PAPI_ESYS);
    WANT(begin(unit, "missing", "field"), PAPI_ESYS);
    WANT(begin(unit, NULL, "missing.%t"), PAPI_VER_CURRENT);
    PAPI_shutdown();
}

/* The first thread has its stream, and the second one none that can be read. It is told once, and
 * each of its calls is refused. */
static void *refused(void *unused) {
    int set = PAPI_NULL;
    WANT(PAPI_register_thread(), PAPI_ESYS);
    WANT(PAPI_create_eventset(&set), PAPI_ESYS);
    WANT(kistalub_go(1, NULL), PAPI_ESYS);
    return unused;
}

static void of_a_thread(void) {
    pthread_t thread;
    write_file("part.0", "0 c0 00 u 5 1\n");
    WANT(mkdir("part.1", 0700), 0);
    WANT(begin(unit, NULL, "part.%t"), PAPI_VER_CURRENT);
    WANT(pthread_create(&thread, NULL, refused, NULL), 0);
    WANT(pthread_join(thread, NULL), 0);
    WANT(kistalub_go(1, NULL), PAPI_OK);
    PAPI_shutdown();
    WANT(unlink("part.0"), 0);
    WANT(rmdir("part.1"), 0);
}

static void tables(void) {
    write_file("faulty.unit", "COMPONENT,cpu,lab\nCOUNTER,P0,16,P\nCOUNTER,P1,99,P\n");
    write_file("faulty.presets", "CPU,lab1\nPRESET,PAPI_TOT_INS,NOT_DERIVED,INST_RETIRED\nPRESET,"
                                 "PAPI_TOT_CYC,DERIVED_WRONG,CYCLES\n");
    write_large("large.unit", TABLE_LIMIT + 1);
    WANT(begin("faulty.unit", NULL, "field"), PAPI_ESYS);
    WANT(begin(unit, "faulty.presets", "field"), PAPI_ESYS);
    WANT(begin("large.unit", NULL, "field"), PAPI_ESYS);
    WANT(PAPI_library_init(PAPI_VERSION_NUMBER(6, 0, 0, 0)), PAPI_EINVAL);
}

static void variable(const char *name, const char *value) {
    setenv(name, value, 1);
    WANT(PAPI_library_init(PAPI_VER_CURRENT), PAPI_ESYS);
    WANT(PAPI_is_initialized(), PAPI_NOT_INITED);
    unsetenv(name);
}

/* What is read later is judged when the library begins, too. */
static void files_of_variables(void) {
    static const char *const caches[] = { "l1d=32768,8", "l1d=32768,8,64 l9=1,1,1",
                                          "l1d=0,8,64",  "l1d=1,1,99999999999",
                                          "l1d=1,1,1,1", "l1d",
                                          "L1D=1,1,1" };
    for (size_t i = 0; i < sizeof caches / sizeof *caches; i++)
        variable("KISTALUB_CACHES", caches[i]);
    variable("KISTALUB_STREAM", "field");
    variable("KISTALUB_STREAM", "missing.%t");
}

int main(void) {
    char folder[] = "/tmp/kistalub_faulty_XXXXXX";
    static const char *const files[] = { "field",  "fields",      "stamp",          "long",
                                         "larger", "faulty.unit", "faulty.presets", "large.unit" };
    unit = getenv("KISTALUB_UNIT");
    WANT(mkdtemp(folder) != NULL, 1);
    WANT(chdir(folder), 0);
    setenv("KISTALUB_STEP", "9", 1);
    streams();
    unreadable();
    of_a_thread();
    tables();
    setenv("KISTALUB_UNIT", unit, 1);
    files_of_variables();
    unsetenv("KISTALUB_UNIT");
    WANT(PAPI_library_init(PAPI_VER_CURRENT), PAPI_ESYS);
    variable("KISTALUB_STEP", "abc");
    variable("KISTALUB_STEP", "-1");
    variable("KISTALUB_STEP", "");
    variable("KISTALUB_STEP", "5 ");
    variable("KISTALUB_STEP", "4294967296");
    variable("KISTALUB_SLICE", "0");
    variable("KISTALUB_SLICE", "1000001");
    for (size_t i = 0; i < sizeof files / sizeof *files; i++) WANT(unlink(files[i]), 0);
    WANT(rmdir("folder"), 0);
    WANT(rmdir(folder), 0);
    return 0;
}
