/* What output.c takes of Valgrind, over the C library; and a program that puts so many bytes into a
 * stream, which after the word `nothing` takes none. */
#include "output.h"
#include "words.h"
#include <stdarg.h>
#include <stdio.h>
#include <stdlib.h>
#include <string.h>
#include <unistd.h>
all_words words = {.stream = 1, .report = 2};
Int vgPlain_safe_fd(Int file) { return file; }
void *vgPlain_calloc(const HChar *why, SizeT count, SizeT size) { return calloc(count, size); }
void *vgPlain_malloc(const HChar *why, SizeT size) { return malloc(size); }
void *vgPlain_realloc(const HChar *why, void *at, SizeT size) { return realloc(at, size); }
void vgPlain_free(void *at) { free(at); }
void *vgPlain_memcpy(void *to, const void *from, SizeT size) { return memcpy(to, from, size); }
SizeT vgPlain_strlen(const HChar *text) { return strlen(text); }
HChar *vgPlain_strcpy(HChar *to, const HChar *from) { return strcpy(to, from); }
HChar *vgPlain_strstr(const HChar *text, const HChar *part) { return strstr(text, part); }
static Bool takes_nothing;
Int vgPlain_write(Int file, const void *from, Int size) {
    return file == words.stream && takes_nothing ? 0 : (Int)write(file, from, (size_t)size);
}
void vgPlain_close(Int file) { close(file); }
Int vgPlain_fd_open(const HChar *name, Int flags, Int mode) { return -1; }
UInt vgPlain_vsnprintf(HChar *to, Int size, const HChar *form, va_list all) {
    return (UInt)vsnprintf(to, (size_t)size, form, all);
}
UInt vgPlain_snprintf(HChar *to, Int size, const HChar *form, ...) {
    va_list all;
    va_start(all, form);
    return (UInt)vsnprintf(to, (size_t)size, form, all);
}
UInt vgPlain_sprintf(HChar *to, const HChar *form, ...) {
    va_list all;
    va_start(all, form);
    return (UInt)vsprintf(to, form, all);
}
UInt vgPlain_umsg(const HChar *form, ...) { return 0; }
void vgPlain_exit(Int status) { exit(status); }
int main(int count, char **bytes) {
    outputs_begin();
    stream *s = stream_of(0);
    for (int i = 1; i < count; i++) {
        takes_nothing = takes_nothing || !strcmp(bytes[i], "nothing");
        size_t left = strtoul(bytes[i], NULL, 10);
        while (left) {
            static char line[4096];
            UInt part = left < sizeof line ? (UInt)left : sizeof line;
            stream_puts(s, line, part, 0x1234);
            left -= part;
        }
    }
    stream_ends(s);
    return 0;
}
