/* Files that the tool writes: streams, and what it reports. The program does not see their
 * descriptors. */
#ifndef OUTPUT_H
#define OUTPUT_H
#include "pub_tool_basics.h"

#define MOST_STREAM_BYTES 67108864u

/* Moves a descriptor to where the program has none. It is a function of Valgrind's core. */
extern Int VG_(safe_fd)(Int descriptor);

void outputs_begin(void);

/* A line for the process that started this run. */
void report(const HChar *format, ...) __attribute__((format(printf, 1, 2)));

/* Says what is wrong, and ends the run. */
void fail(const HChar *cause) __attribute__((noreturn));

/* The address at which the program was loaded: the first line of each stream says it. */
void streams_begin(Addr base);

/* A stream. Without a file its lines go nowhere. */
typedef struct stream stream;
stream *stream_of(UInt thread_number);

/* Writes a line about what happened at `pc`. The run ends if the stream is full. */
void stream_puts(stream *s, const HChar *line, UInt length, Addr pc);
void stream_flushes(stream *s);
void stream_ends(stream *s);

/* What is not written yet is forgotten, and nothing more is written. */
void outputs_close(void);

#endif
