#include "output.h"

#include "pub_tool_libcassert.h"
#include "pub_tool_libcbase.h"
#include "pub_tool_libcfile.h"
#include "pub_tool_libcprint.h"
#include "pub_tool_mallocfree.h"
#include "pub_tool_vki.h"

#include "words.h"

#define ROOM 65536
#define LONGEST_NAME 4096
#define FAILED 1


struct stream {
    Int file; /* or -1 */
    HChar *text;
    UInt used, room;
    ULong bytes;
};

/* whole: of all threads, if there is one descriptor for them; early: begun before the first line is
 * known */
static stream *whole, *early;
static Int reports = -1;
static HChar head[64];
static Bool is_closed;

void outputs_begin(void) {
    if (words.report >= 0) reports = VG_(safe_fd)(words.report);
    if (words.stream < 0) return;
    whole = VG_(calloc)("stream", 1, sizeof *whole);
    whole->file = VG_(safe_fd)(words.stream);
    whole->room = ROOM;
    whole->text = VG_(malloc)("stream", ROOM);
}

static void write_all(Int file, const HChar *text, UInt length) {
    while (length) {
        Int written = VG_(write)(file, text, (Int)length);
        if (written <= 0) fail("the stream can't be written");
        text += written;
        length -= (UInt)written;
    }
}

/* One line, whatever stands in the names in it. */
void report(const HChar *format, ...) {
    HChar line[LONGEST_NAME];
    va_list arguments;
    if (reports < 0 || is_closed) return;
    va_start(arguments, format);
    UInt length = VG_(vsnprintf)(line, sizeof line - 1, format, arguments);
    va_end(arguments);
    if (length > sizeof line - 2) length = sizeof line - 2;
    for (UInt i = 0; i < length; i++)
        if (line[i] > 0 && line[i] < ' ') line[i] = '?';
    line[length++] = '\n';
    VG_(write)(reports, line, (Int)length);
}

void fail(const HChar *cause) {
    report("failed %s", cause);
    if (reports < 0) VG_(umsg)("%s\n", cause);
    VG_(exit)(FAILED);
}

static void put(stream *s, const HChar *text, UInt length) {
    if (s->used + length > s->room) stream_flushes(s);
    VG_(memcpy)(s->text + s->used, text, length);
    s->used += length;
    s->bytes += length;
}

void streams_begin(Addr base) {
    VG_(snprintf)(head, sizeof head, "# loaded at 0x%lx\n", base);
    stream *begun = whole ? whole : early;
    if (begun) put(begun, head, (UInt)VG_(strlen)(head));
}

/* The name of a thread's file. */
static void put_name(HChar *to, UInt size, UInt number) {
    const HChar *sign = VG_(strstr)(words.streams, "%t");
    UInt length = sign ? (UInt)(sign - words.streams) : 0;
    if (VG_(strlen)(words.streams) + 20 > size) fail("the stream's name is too long");
    VG_(memcpy)(to, words.streams, length);
    if (sign) VG_(sprintf)(to + length, "%u%s", number, sign + VG_(strlen)("%t"));
    else VG_(strcpy)(to, words.streams);
}

static Int open_file(UInt number) {
    HChar name[LONGEST_NAME];
    put_name(name, sizeof name, number);
    Int file = VG_(fd_open)(name, VKI_O_WRONLY | VKI_O_CREAT | VKI_O_TRUNC, 0666);
    if (file >= 0) return VG_(safe_fd)(file);
    report("failed %s: can't be opened", name);
    VG_(exit)(FAILED);
}

stream *stream_of(UInt thread_number) {
    if (whole) return whole;
    stream *s = VG_(calloc)("stream", 1, sizeof *s);
    s->file = words.streams ? open_file(thread_number) : -1;
    s->room = ROOM;
    s->text = VG_(malloc)("stream", ROOM);
    if (s->file < 0) return s;
    if (head[0]) put(s, head, (UInt)VG_(strlen)(head));
    else early = s;
    return s;
}

void stream_puts(stream *s, const HChar *line, UInt length, Addr pc) {
    if (is_closed || s->file < 0) return;
    if (s->bytes + length > MOST_STREAM_BYTES) {
        stream_flushes(s);
        report("full %lx", pc);
        VG_(exit)(FAILED);
    }
    put(s, line, length);
}

void stream_flushes(stream *s) {
    if (s->file < 0) return;
    if (!is_closed) write_all(s->file, s->text, s->used);
    s->used = 0;
}

void stream_ends(stream *s) {
    stream_flushes(s);
    if (s == whole) return;
    if (s->file >= 0) VG_(close)(s->file);
    VG_(free)(s->text);
    VG_(free)(s);
}

void outputs_close(void) { is_closed = True; }
