/* Files, read as a whole, and what is said where one can't be. */
#include "posix.h"
#include "files.h"
#include "papi.h"

#include <errno.h>
#include <stdio.h>
#include <stdlib.h>

#define FIRST_ROOM 4096

void kl_drop_text(text *t) {
    free(t->bytes);
    t->bytes = NULL;
    t->length = 0;
}

/* Room for more bytes: twice as much, and a byte past the limit at most, which shows that a file
 * passes it. */
static int grow(text *t, size_t *room, size_t limit) {
    size_t more = *room ? 2 * *room : FIRST_ROOM;
    if (more > limit) more = limit + 1;
    unsigned char *bytes = realloc(t->bytes, more);
    if (!bytes) return 0;
    t->bytes = bytes;
    *room = more;
    return 1;
}

static kl_ending read_open(FILE *f, size_t limit, text *into) {
    size_t room = 0;
    for (;;) {
        if (into->length > limit) return LARGE;
        if (into->length == room && !grow(into, &room, limit)) return NO_MEMORY;
        size_t n = fread(into->bytes + into->length, 1, room - into->length, f);
        into->length += n;
        if (n == 0) return ferror(f) ? UNREADABLE : READ;
    }
}

/* Reads a file of at most `limit` bytes. */
kl_ending kl_read_file(const char *path, size_t limit, text *into) {
    FILE *f = fopen(path, "rbe");
    if (!f)
        return errno == ENOENT || errno == ENOTDIR ? ABSENT
               : errno == ENOMEM                   ? NO_MEMORY
                                                   : UNREADABLE;
    kl_ending end = read_open(f, limit, into);
    fclose(f);
    if (end != READ && end != LARGE) kl_drop_text(into);
    return end;
}

int kl_read_said(kl_ending end, const char *path) {
    if (end == ABSENT) fprintf(stderr, "papi: no such file: %s\n", path);
    if (end == UNREADABLE) fprintf(stderr, "papi: cannot read: %s\n", path);
    if (end == LARGE) fprintf(stderr, "papi: %s: too large\n", path);
    return end == READ ? PAPI_OK : end == NO_MEMORY ? PAPI_ENOMEM : PAPI_ESYS;
}
