/* What each line of source does by itself, each function with all that it calls, and each call.
 *
 * Code counts how often its parts run, and what its guards and branches do, in counters of its
 * block. They are shared out among the lines of its instructions when the block is gone, or at the
 * end. */
#ifndef PROFILE_H
#define PROFILE_H
#include "code.h"
#include "functions.h"

/* A line of source in a function, and in what is inlined there. Without debug information the
 * function has one line, 0. */
typedef struct line {
    function *in;
    const HChar *inlined, *file; /* or NULL */
    UInt number;
    ULong own[ALL_KINDS];
    struct line *next;
} line;

/* Calls from a place to a function. */
typedef struct edge {
    line *from;
    Addr site;
    function *to;
    ULong calls, inclusive[ALL_KINDS];
    struct edge *next;
} edge;

/* Code of a block, and of an instruction. */
void profile_begins_block(block *b);
void profile_sees_instruction(code *c);
void code_profiles_segment(code *c);
void code_profiles_guard(code *c, UInt kind, IRExpr *times);
void code_profiles_outcome(code *c, IRExpr *offset); /* 8 for each outcome */

/* Something happens in the block that runs on a core, beside what its code counts. */
void profile_adds(const core *c, UInt instruction_number, UInt kind, ULong amount);

/* The block's code is gone. */
void profile_takes_block(block *b);

edge *profile_edge(Addr site, function *to);

/* Nothing has happened yet. */
void profile_forgets(void);

/* Writes all lines, by a function that puts a text. */
void profile_writes(void (*put)(const HChar *text));

#endif
