/* What is known of a translated block of the program, and what its code passes on to the tool. It
 * is kept as long as the translation. */
#ifndef BLOCK_H
#define BLOCK_H
#include "core.h"

/* segment: the exits of the block before it */
typedef struct { Addr pc; UShort size, segment; } instruction;

/* Occurrences of a segment, by each of its instructions. They are added to the counts when the
 * segment is left. */
typedef struct { UShort instruction, segment, kind; Short amount; } share;

struct block {
    Addr pc;
    UInt count, shares_count; /* count: of its instructions */
    Bool begins_repeated;     /* the first instruction repeats itself */
    /* Its code looks at thresholds behind each instruction. It stands beside the code that runs as
     * a whole. */
    Bool is_close;
    instruction *instructions;
    share *shares;
    struct chunk *chunks;
    struct line **lines;      /* of its instructions, for a profile (profile.h) */
    struct counter *counters;
    block *next;
};

/* Makes what is known of the block that begins at `pc`, in place of what was known. One of close
 * code is kept until there is another one: Valgrind does not tell when that code is gone. */
block *new_block(Addr pc, Bool is_close);
void block_forget(Addr pc);
void blocks_each(void (*f)(block *b));

/* Memory that is kept as long as the block. */
void *block_memory(block *b, SizeT size);

#endif
