// Makes calls of a program fail: memory that is not given, threads that are not started, and files
// that are not opened, read or written. It is loaded before the C library (LD_PRELOAD), and told by
// the environment:
//   FAILING_KIND   alloc, alloc_from, io, io_from, short, short_from, empty, thread
//   FAILING_AT     the number of the first call that fails, from 1
//   FAILING_ERRNO  the error of a call of a file (EIO)
//   FAILING_LOG    a file that gets the number of calls and, if some failed, the first of these:
//   `alloc`, `thread`, `open NAME`,
//                  `read NAME`, or `write` and the descriptor
// alloc: the call at that number gives no memory. io: that opening, read or write fails. short:
// that read or write moves one byte. empty: that write takes nothing. thread: that thread is not
// started. `from`: that call and all later ones. Beside these, each by itself:
//   FAILING_OPENINGS  the numbers of openings that fail, from 1, with blanks between
//   FAILING_READS     `NAME BYTES`, and more with blanks between: reads of that file fail after so
//   many bytes, or at its end FAILING_PIECE     the most bytes that a read gives FAILING_OUT how
//   many bytes standard output takes before its writes fail, and FAILING_ERR       standard error
#define _GNU_SOURCE
#include <dlfcn.h>
#include <errno.h>
#include <fcntl.h>
#include <pthread.h>
#include <stdarg.h>
#include <stdatomic.h>
#include <stdint.h>
#include <stdio.h>
#include <stdlib.h>
#include <string.h>
#include <sys/syscall.h>
#include <unistd.h>

extern void *__libc_malloc(size_t size);
extern void *__libc_calloc(size_t count, size_t size);
extern void *__libc_realloc(void *memory, size_t size);
extern void *__libc_memalign(size_t align, size_t size);

enum { FILES = 100 }; // that are open at a time and known by their names

enum kind { NONE, ALLOC, IO, SHORT, EMPTY, THREAD };

static enum kind kind = NONE;
static int from = 0;
static unsigned long at = 0;
static int error = EIO;
static atomic_ulong calls = 0;
static atomic_flag told = ATOMIC_FLAG_INIT;
static char failed[400];
static char names[FILES][300];
static const char *failing_openings = "";
static const char *failing_reads = "";
static atomic_ulong openings = 0;
static int is_torn[FILES];
static size_t left[FILES];
static size_t piece = SIZE_MAX;
static size_t room[3] = {SIZE_MAX, SIZE_MAX, SIZE_MAX};

// The number in a variable, or the greatest one.
static size_t size_of(const char *variable) {
    const char *text = getenv(variable);
    return text ? strtoull(text, NULL, 10) : SIZE_MAX;
}

static const char *text_of(const char *variable) {
    const char *text = getenv(variable);
    return text ? text : "";
}

static void begin_limits(void) {
    failing_openings = text_of("FAILING_OPENINGS");
    failing_reads = text_of("FAILING_READS");
    piece = size_of("FAILING_PIECE");
    room[1] = size_of("FAILING_OUT");
    room[2] = size_of("FAILING_ERR");
}

__attribute__((constructor)) static void begin(void) {
    const char *word = getenv("FAILING_KIND");
    const char *number = getenv("FAILING_AT");
    const char *with = getenv("FAILING_ERRNO");
    begin_limits();
    error = with ? atoi(with) : EIO;
    if (!word || !number) {
        return;
    }
    at = strtoul(number, NULL, 10);
    from = strstr(word, "_from") != NULL;
    switch (word[0]) {
    case 'a':
        kind = ALLOC;
        break;
    case 'i':
        kind = IO;
        break;
    case 's':
        kind = SHORT;
        break;
    case 'e':
        kind = EMPTY;
        break;
    case 't':
        kind = THREAD;
        break;
    }
}

__attribute__((destructor)) static void write_log(void) {
    const char *log = getenv("FAILING_LOG");
    char text[500];
    if (!log) {
        return;
    }
    int file = syscall(SYS_openat, AT_FDCWD, log, O_WRONLY | O_CREAT | O_TRUNC, 0600);
    int length = snprintf(text, sizeof text, "%lu %s\n", (unsigned long)calls, failed);
    syscall(SYS_write, file, text, length);
    syscall(SYS_close, file);
}

// A program that ends by this runs no destructors.
void _exit(int status) {
    write_log();
    for (;;) {
        syscall(SYS_exit_group, status);
    }
}

// Counts a call of a kind, and says whether it is to fail: WHAT it is, and on which file.
static int fails(enum kind it, const char *what, const char *on) {
    if (kind != it) {
        return 0;
    }
    unsigned long number = atomic_fetch_add(&calls, 1) + 1;
    if (!at || number < at || (number > at && !from)) {
        return 0;
    }
    if (!atomic_flag_test_and_set(&told)) {
        snprintf(failed, sizeof failed, "%s %s", what, on);
    }
    return 1;
}

static int is_known(int file) {
    return file >= 0 && file < FILES;
}

static const char *name_of(int file) {
    return is_known(file) ? names[file] : "";
}

static void *no_memory(void) {
    errno = ENOMEM;
    return NULL;
}

void *malloc(size_t size) {
    return fails(ALLOC, "alloc", "") ? no_memory() : __libc_malloc(size);
}

void *calloc(size_t count, size_t size) {
    return fails(ALLOC, "alloc", "") ? no_memory() : __libc_calloc(count, size);
}

void *realloc(void *memory, size_t size) {
    return fails(ALLOC, "alloc", "") ? no_memory() : __libc_realloc(memory, size);
}

void *aligned_alloc(size_t align, size_t size) {
    return fails(ALLOC, "alloc", "") ? no_memory() : __libc_memalign(align, size);
}

int posix_memalign(void **memory, size_t align, size_t size) {
    if (fails(ALLOC, "alloc", "")) {
        return ENOMEM;
    }
    *memory = __libc_memalign(align, size);
    return *memory ? 0 : ENOMEM;
}

typedef int create_thread(pthread_t *, const pthread_attr_t *, void *(*)(void *), void *);

int pthread_create(pthread_t *thread, const pthread_attr_t *how, void *(*work)(void *), void *on) {
    if (fails(THREAD, "thread", "")) {
        return EAGAIN;
    }
    return ((create_thread *)dlsym(RTLD_NEXT, "pthread_create"))(thread, how, work, on);
}

// Whether the opening that is made now has one of the numbers that fail.
static int opening_fails(void) {
    unsigned long number = atomic_fetch_add(&openings, 1) + 1;
    char *rest;
    for (const char *next = failing_openings; *next; next = rest) {
        if (strtoul(next, &rest, 10) == number) {
            return 1;
        }
        if (rest == next) {
            return 0;
        }
    }
    return 0;
}

// Notes after how many bytes the reads of a file fail that was opened.
static void note_torn(int file, const char *name) {
    char torn[300];
    size_t bytes;
    int length;
    is_torn[file] = 0;
    for (const char *next = failing_reads; sscanf(next, " %299s %zu%n", torn, &bytes, &length) == 2;
         next += length) {
        if (!strcmp(torn, name)) {
            is_torn[file] = 1;
            left[file] = bytes;
            return;
        }
    }
}

static int open_file(int folder, const char *name, int flags, mode_t mode) {
    if (opening_fails() || fails(IO, "open", name)) {
        errno = error;
        return -1;
    }
    int file = syscall(SYS_openat, folder, name, flags, mode);
    if (is_known(file)) {
        snprintf(names[file], sizeof names[file], "%s", name);
        note_torn(file, name);
    }
    return file;
}

// The mode stands among the further arguments.
#define MODE_OF(flags)                                    \
    ({                                                    \
        mode_t found = 0;                                 \
        if ((flags) & (O_CREAT | O_TMPFILE)) {            \
            va_list further;                              \
            va_start(further, flags);                     \
            found = va_arg(further, mode_t);              \
            va_end(further);                              \
        }                                                 \
        found;                                            \
    })

int open(const char *name, int flags, ...) {
    return open_file(AT_FDCWD, name, flags, MODE_OF(flags));
}

int open64(const char *name, int flags, ...) {
    return open_file(AT_FDCWD, name, flags, MODE_OF(flags));
}

int openat(int folder, const char *name, int flags, ...) {
    return open_file(folder, name, flags, MODE_OF(flags));
}

int openat64(int folder, const char *name, int flags, ...) {
    return open_file(folder, name, flags, MODE_OF(flags));
}

ssize_t read(int file, void *into, size_t size) {
    if (fails(IO, "read", name_of(file))) {
        errno = error;
        return -1;
    }
    size = size < piece ? size : piece;
    size = size > 1 && fails(SHORT, "read", name_of(file)) ? 1 : size;
    if (!is_known(file) || !is_torn[file]) {
        return syscall(SYS_read, file, into, size);
    }
    ssize_t given =
        left[file] ? syscall(SYS_read, file, into, size < left[file] ? size : left[file]) : 0;
    if (given == 0) {
        errno = error;
        return -1;
    }
    left[file] -= given > 0 ? (size_t)given : 0;
    return given;
}

ssize_t write(int file, const void *bytes, size_t size) {
    if (fails(IO, "write", file == 1 ? "1" : "2")) {
        errno = error;
        return -1;
    }
    if (size && fails(EMPTY, "write", file == 1 ? "1" : "2")) {
        return 0;
    }
    size = size > 1 && fails(SHORT, "write", file == 1 ? "1" : "2") ? 1 : size;
    if (file < 1 || file > 2 || room[file] == SIZE_MAX) {
        return syscall(SYS_write, file, bytes, size);
    }
    if (size && !room[file]) {
        errno = error;
        return -1;
    }
    ssize_t taken = syscall(SYS_write, file, bytes, size < room[file] ? size : room[file]);
    room[file] -= taken > 0 ? (size_t)taken : 0;
    return taken;
}

ssize_t __write(int file, const void *bytes, size_t size) {
    return write(file, bytes, size);
}
