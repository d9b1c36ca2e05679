/* The bytes of streams. One that all threads have lies in memory once: it is mapped, and looked at
 * again only if the file has changed. One of a thread alone is there while its library is opened,
 * which keeps what it needs. */
#include "posix.h"
#include "files.h"
#include "limits.h"
#include "locks.h"
#include "papi.h"
#include "sets.h"
#include "streams.h"
#include "thread.h"

#include <errno.h>
#include <fcntl.h>
#include <pthread.h>
#include <stdint.h>
#include <stdio.h>
#include <stdlib.h>
#include <sys/mman.h>
#include <sys/stat.h>
#include <unistd.h>

/* A stream's limit, and room for the line that passes it: the reader says which that is. */
#define STREAM_ROOM (LARGEST_STREAM + 4096)
/* How many digits a thread's number has at most. */
#define NUMBER_ROOM 10
#define WORDS_ROOM 64

struct kl_stream {
    /* under kl_stream_lock: the files, if it is shared, and each thread that opens over it */
    unsigned holders;
    int file;         /* open, if it is mapped, or -1 */
    struct stat seen;
    text bytes;
};

static void drop(kl_stream *s) {
    if (s->file < 0) kl_drop_text(&s->bytes);
    else {
        munmap(s->bytes.bytes, s->bytes.length);
        close(s->file);
    }
    free(s);
}

void kl_drop_stream(kl_stream *stream) {
    pthread_mutex_lock(&kl_stream_lock);
    int last = --stream->holders == 0;
    pthread_mutex_unlock(&kl_stream_lock);
    if (last) drop(stream);
}

/* Whether the file that was mapped is open still, and as it was. */
static int is_same(const kl_stream *s) {
    struct stat now;
    if (s->file < 0) return 1;
    return fstat(s->file, &now) == 0 && now.st_dev == s->seen.st_dev &&
           now.st_ino == s->seen.st_ino && now.st_size == s->seen.st_size &&
           now.st_mtim.tv_sec == s->seen.st_mtim.tv_sec &&
           now.st_mtim.tv_nsec == s->seen.st_mtim.tv_nsec;
}

/* Maps a plain file. What can't be mapped is read, and is not opened before: a pipe has one
 * reader. */
static int map(kl_stream *s, const char *path) {
    int file = stat(path, &s->seen) == 0 && S_ISREG(s->seen.st_mode)
                   ? open(path, O_RDONLY | O_CLOEXEC)
                   : -1;
    if (file < 0) return 0;
    if (fstat(file, &s->seen) == 0 && S_ISREG(s->seen.st_mode) && s->seen.st_size > 0) {
        s->bytes.length = s->seen.st_size > STREAM_ROOM ? STREAM_ROOM + 1 : (size_t)s->seen.st_size;
        void *at = mmap(NULL, s->bytes.length, PROT_READ, MAP_PRIVATE, file, 0);
        if (at != MAP_FAILED) {
            s->bytes.bytes = at;
            s->file = file;
            return 1;
        }
    }
    s->bytes.length = 0;
    close(file);
    return 0;
}

/* The bytes of a file. It may be absent. */
static int load(const char *path, int may_lack, kl_stream **made) {
    kl_stream *s = calloc(1, sizeof *s);
    if (!s) return PAPI_ENOMEM;
    s->holders = 1;
    s->file = -1;
    kl_ending end = map(s, path) ? READ : kl_read_file(path, STREAM_ROOM, &s->bytes);
    int code = end == LARGE || (end == ABSENT && may_lack) ? PAPI_OK : kl_read_said(end, path);
    if (code == PAPI_OK) *made = s;
    else free(s);
    return code;
}

/* The path of a thread's stream, in which each %t is its number. */
char *kl_stream_path(const char *streams, uint32_t number, int *is_threads) {
    size_t room = 1, at = 0;
    for (const char *p = streams; *p; p++) room += NUMBER_ROOM;
    char *path = malloc(room);
    *is_threads = 0;
    if (!path) return NULL;
    for (const char *p = streams; *p; p++)
        if (p[0] == '%' && p[1] == 't') {
            at += (size_t)snprintf(path + at, room - at, "%u", (unsigned)number);
            *is_threads = 1;
            p++;
        } else path[at++] = *p;
    path[at] = 0;
    return path;
}

/* The stream that all threads have. */
static int share(kl_files *files, const char *path, kl_stream **stream) {
    kl_stream *old = NULL;
    int code = PAPI_OK;
    pthread_mutex_lock(&kl_stream_lock);
    if (files->shared && !is_same(files->shared)) {
        old = files->shared;
        files->shared = NULL;
    }
    if (!files->shared) code = load(path, 0, &files->shared);
    if (code == PAPI_OK) {
        *stream = files->shared;
        files->shared->holders++;
    }
    pthread_mutex_unlock(&kl_stream_lock);
    if (old) kl_drop_stream(old);
    return code;
}

/* It is empty if none is named, or if there is no such file of those that are named by %t. */
int kl_take_stream(kl_files *files, uint32_t number, kl_stream **stream, text *bytes) {
    int is_threads;
    *stream = NULL;
    if (!*files->streams) return PAPI_OK;
    char *path = kl_stream_path(files->streams, number, &is_threads);
    if (!path) return PAPI_ENOMEM;
    int code = is_threads ? load(path, 1, stream) : share(files, path, stream);
    if (code == PAPI_OK) *bytes = (*stream)->bytes;
    free(path);
    return code;
}

void kl_give_stream(kl_stream *stream) {
    if (stream) kl_drop_stream(stream);
}

void kl_say_fault(uint32_t number, const kistalub_fault *fault) {
    unsigned char words[WORDS_ROOM];
    uint64_t length = 0;
    if (kistalub_cause(fault->cause, words, sizeof words, &length) != PAPI_OK) return;
    if (fault->line == 0)
        fprintf(stderr, "papi: stream %u: %.*s\n", (unsigned)number, (int)length,
                (const char *)words);
    else
        fprintf(stderr, "papi: stream %u: line %llu: %.*s\n", (unsigned)number,
                (unsigned long long)fault->line, (int)length, (const char *)words);
}

/* Lets all of a stream happen to a library that counts nothing. */
static int run_through(kistalub *library) {
    kistalub_passing unused[MOST_EVENTS];
    kistalub_fault fault = { 0, 0 };
    uint64_t told = 0;
    uint32_t consumed = 1;
    int code = PAPI_OK;
    while (code == PAPI_OK && consumed)
        code = kistalub_run(library, UINT32_MAX, &consumed, unused, MOST_EVENTS, &told, &fault);
    if (code == PAPI_ESYS) kl_say_fault(0, &fault);
    return code;
}

/* Whether the first thread's stream is there, also if it is named by %t; and whether it can be read
 * twice, which a pipe of a thread alone can't. */
static int look_at(const kl_files *files, int *can_be_judged) {
    int is_threads, code = PAPI_OK;
    struct stat seen;
    char *path = kl_stream_path(files->streams, 0, &is_threads);
    if (!path) return PAPI_ENOMEM;
    int is_there = *path && stat(path, &seen) == 0;
    if (*path && !is_there && (errno == ENOENT || errno == ENOTDIR))
        code = kl_read_said(ABSENT, path);
    *can_be_judged = !is_there || !is_threads || S_ISREG(seen.st_mode);
    free(path);
    return code;
}

int kl_judge_stream(kl_files *files) {
    kistalub library = KISTALUB_SHUT;
    text bytes = { NULL, 0 };
    kl_stream *stream = NULL;
    int can_be_judged = 1, code = look_at(files, &can_be_judged);
    if (code != PAPI_OK || !can_be_judged) return code;
    code = kl_take_stream(files, 0, &stream, &bytes);
    if (code == PAPI_OK && bytes.length) code = kl_open_over(&library, files, 0, &bytes);
    if (code == PAPI_OK && bytes.length) code = run_through(&library);
    kistalub_close(&library);
    kl_give_stream(stream);
    return code;
}
