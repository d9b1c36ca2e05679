/* Refuses one allocation of a program, after as many as `left` says, and counts those that are live
 * and those that were refused. For programs linked with --wrap=malloc, --wrap=calloc,
 * --wrap=realloc and --wrap=free. */
#ifndef REFUSING_H
#define REFUSING_H

#include <stddef.h>

void *__real_malloc(size_t n);
void *__real_calloc(size_t n, size_t size);
void *__real_realloc(void *p, size_t n);
void __real_free(void *p);

static long left = -1, live, refusals;

static int refused(void) {
    if (left < 0 || left-- != 0) return 0;
    refusals++;
    return 1;
}

static void *counted(void *p) {
    if (p) live++;
    return p;
}

void *__wrap_malloc(size_t n) { return refused() ? NULL : counted(__real_malloc(n)); }
void *__wrap_calloc(size_t n, size_t size) {
    return refused() ? NULL : counted(__real_calloc(n, size));
}

void *__wrap_realloc(void *p, size_t n) {
    if (!p) return __wrap_malloc(n);
    return refused() ? NULL : __real_realloc(p, n);
}

void __wrap_free(void *p) {
    if (p) live--;
    __real_free(p);
}

#endif
