/* The unit file and the preset file: read once for the process. */
#include "posix.h"
#include "files.h"
#include "limits.h"
#include "papi.h"
#include "silent.h"
#include "streams.h"

#include <stdint.h>
#include <stdio.h>
#include <stdlib.h>
#include <string.h>

#define WORDS_ROOM 64

static int read_table(const char *path, text *into) {
    kl_ending end = kl_read_file(path, TABLE_BYTES, into);
    if (end == LARGE) kl_drop_text(into);
    return kl_read_said(end, path);
}

/* Says which row of a table is faulty, if one is. */
static int row_said(int code, const char *path, uint64_t row, const unsigned char *words,
                    uint64_t length) {
    if (code == PAPI_OK && row == 0) return PAPI_OK;
    if (code == PAPI_OK)
        fprintf(stderr, "papi: %s: row %llu: %.*s\n", path, (unsigned long long)row, (int)length,
                (const char *)words);
    return code == PAPI_ENOMEM ? code : PAPI_ESYS;
}

static int check_unit(const kl_files *files) {
    unsigned char words[WORDS_ROOM];
    uint64_t row = 0, length = 0;
    int code = kistalub_unit_fault(files->unit.bytes, files->unit.length, &row, words, sizeof words,
                                   &length);
    return row_said(code, files->unit_path, row, words, length);
}

static int check_presets(const kl_files *files) {
    unsigned char words[WORDS_ROOM];
    uint64_t row = 0, length = 0;
    if (files->presets.length == 0) return PAPI_OK;
    int code = kistalub_presets_fault(files->presets.bytes, files->presets.length,
                                      (const unsigned char *)files->cpu, strlen(files->cpu), &row,
                                      words, sizeof words, &length);
    if (code == PAPI_EINVAL) fprintf(stderr, "papi: the name of the cpu is not UTF-8\n");
    return row_said(code, files->presets_path, row, words, length);
}

static char *copied(const char *s) {
    size_t n = strlen(s) + 1;
    char *to = malloc(n);
    if (to) memcpy(to, s, n);
    return to;
}

void kl_free_files(kl_files *files) {
    if (files->shared) kl_drop_stream(files->shared);
    kl_forget_asked(files);
    kl_drop_text(&files->unit);
    kl_drop_text(&files->presets);
    free(files->unit_path);
    free(files->presets_path);
    free(files->cpu);
    free(files->streams);
    free(files);
}

static int read_into(kl_files *files, const char *presets) {
    if (!files->unit_path || !files->presets_path || !files->cpu || !files->streams)
        return PAPI_ENOMEM;
    int code = read_table(files->unit_path, &files->unit);
    if (code == PAPI_OK && presets) code = read_table(presets, &files->presets);
    if (code == PAPI_OK) code = check_unit(files);
    return code == PAPI_OK ? check_presets(files) : code;
}

int kl_read_files(const char *unit, const char *presets, const char *cpu, const char *streams,
                  kl_files **made) {
    kl_files *files = calloc(1, sizeof *files);
    if (!files) return PAPI_ENOMEM;
    files->holders = 1;
    files->unit_path = copied(unit);
    files->presets_path = copied(presets ? presets : "");
    files->cpu = copied(cpu ? cpu : "");
    files->streams = copied(streams ? streams : "");
    int code = read_into(files, presets);
    if (code == PAPI_OK) *made = files;
    else kl_free_files(files);
    return code;
}
