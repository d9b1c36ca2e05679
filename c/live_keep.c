/* What happens while a set of a thread counts, kept in a file as lines of a stream: KISTALUB_KEEP
 * has the number of the process and the path, where %t stands for the number of the thread. It
 * holds for that process alone. */
#define _GNU_SOURCE
#include "environment.h"
#include "limits.h"
#include "live_thread.h"
#include "papi.h"
#include "streams.h"
#include "thread.h"

#include <errno.h>
#include <fcntl.h>
#include <stdint.h>
#include <stdio.h>
#include <stdlib.h>
#include <string.h>
#include <unistd.h>

#define KEPT_ROOM 65536
#define LONGEST_LINE 40

struct kl_kept { int file; uint64_t bytes; size_t used; char lines[KEPT_ROOM]; };

static const char *path;
static pid_t process; /* a process that it has forked keeps nothing */

void kl_keep_begins(void) {
    const char *named = kl_variable("KISTALUB_KEEP");
    unsigned long long number = 0;
    int length = 0;
    if (!named || sscanf(named, "%llu %n", &number, &length) != 1 || !length ||
        number != (unsigned long long)getpid())
        return;
    path = named + length;
    process = getpid();
}

static struct kl_kept *open_kept(const char *name) {
    struct kl_kept *kept = malloc(sizeof *kept);
    int file = open(name, O_WRONLY | O_CREAT | O_TRUNC | O_CLOEXEC, 0666);
    if (file < 0 || !kept) {
        fprintf(stderr, "papi: %s: %s\n", name, strerror(file < 0 ? errno : ENOMEM));
        if (file >= 0) close(file);
        free(kept);
        return NULL;
    }
    kept->file = file;
    kept->bytes = kept->used = 0;
    return kept;
}

void kl_keep_opens(thread_state *t) {
    int is_threads = 0;
    if (!path || process != getpid()) return;
    char *name = kl_stream_path(path, t->number, &is_threads);
    if (name && (is_threads || t->number == 0)) t->live->kept = open_kept(name);
    free(name);
}

int kl_keeps(const thread_state *t) { return t->live->kept && process == getpid(); }

static void drop(live_thread *live) {
    close(live->kept->file);
    free(live->kept);
    live->kept = NULL;
}

void kl_keep_closes(thread_state *t) {
    if (t->live && t->live->kept) drop(t->live);
}

static void end_with(live_thread *live, const char *why) {
    fprintf(stderr, "papi: KISTALUB_KEEP: %s\n", why);
    drop(live);
}

static void write_all(live_thread *live) {
    struct kl_kept *kept = live->kept;
    for (size_t done = 0; done < kept->used;) {
        ssize_t some = write(kept->file, kept->lines + done, kept->used - done);
        if (some < 0 && errno == EINTR) continue;
        if (some <= 0) {
            end_with(live, strerror(errno));
            return;
        }
        done += (size_t)some;
    }
    kept->used = 0;
}

void kl_keep_writes(thread_state *t) {
    if (kl_keeps(t)) write_all(t->live);
}

/* So many lines of the amount, as long as there is room in a stream. */
static void add_lines(live_thread *live, const kistalub_occurrences *what, unsigned amount,
                      uint32_t count) {
    char line[LONGEST_LINE];
    const size_t length = (size_t)snprintf(
        line, sizeof line, "%u %02x %02x %c %u %llx\n", what->component, what->select, what->umask,
        what->kernel ? 'k' : 'u', amount, (unsigned long long)what->address);
    for (; count && live->kept; count--) {
        if (live->kept->used + length > KEPT_ROOM) write_all(live);
        if (!live->kept) return;
        if (live->kept->bytes + length > LARGEST_STREAM) {
            write_all(live);
            if (live->kept) end_with(live, "the stream is full (67,108,864 bytes)");
            return;
        }
        memcpy(live->kept->lines + live->kept->used, line, length);
        live->kept->used += length;
        live->kept->bytes += length;
    }
}

void kl_keep_adds(thread_state *t, const kistalub_occurrences *what, uint32_t amount) {
    if (!kl_keeps(t)) return;
    add_lines(t->live, what, LARGEST_AMOUNT, amount / LARGEST_AMOUNT);
    if (amount % LARGEST_AMOUNT) add_lines(t->live, what, amount % LARGEST_AMOUNT, 1);
}
