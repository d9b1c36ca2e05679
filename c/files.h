/* Files as bytes, and the files that the library was begun with. If one is faulty, a line on
 * standard error says so, and the answer is PAPI_ESYS. */
#ifndef KL_FILES_H
#define KL_FILES_H

#include <stddef.h>

typedef struct { unsigned char *bytes; size_t length; } text;

/* whole_file.c: how a read ends. */
typedef enum { READ, ABSENT, UNREADABLE, LARGE, NO_MEMORY } kl_ending;
kl_ending kl_read_file(const char *path, size_t limit, text *into);
/* Says how a read ended, as the tools do. */
int kl_read_said(kl_ending end, const char *path);
void kl_drop_text(text *t);

/* What the library was begun with: the process holds it, and each thread that opens its part. */
typedef struct {
    unsigned holders; /* under kl_lock */
    text unit, presets;
    char *unit_path, *presets_path, *cpu, *streams;
    struct kl_stream *shared; /* that all threads have, under kl_stream_lock, or NULL */
    struct kl_asked *asked;   /* the events that were judged (silent.c) */
} kl_files;

/* files.c */
int kl_read_files(const char *unit, const char *presets, const char *cpu, const char *streams,
                  kl_files **made);
void kl_free_files(kl_files *files);

#endif
