/* Thresholds, which call the library right behind the instruction that passes them, and turns,
 * which call it at the beginning of a block.
 *
 * A block runs as a whole while no threshold can be passed in it: where it begins, what is left of
 * each armed kind is compared with the most that the block has of it. If one may be passed, the
 * thread runs close code in its place, which looks behind each instruction. What the machine does
 * is known only when it happens, so behind an instruction that asked it a block is left if a
 * threshold is near or was passed. */
#ifndef THRESHOLDS_H
#define THRESHOLDS_H
#include "block.h"
#include "tape.h"

extern UInt armed_count;
extern UChar armed_kinds[KL_KINDS];
extern Bool is_armed[KL_KINDS];

/* A kind is armed whose occurrences the machine makes. */
extern Bool is_machine_armed;

/* A thread has turns, or had some. */
extern Bool has_turns;

/* What is translated now is close code. */
extern Bool is_close;

/* Where a passed threshold jumps to. */
extern Addr stub;

/* From now on each `period` occurrences of the kind call the stub, or none if it is 0. False if
 * there is no such kind. */
Bool threshold_arms(core *c, UWord kind, UWord period);

/* The thread's turn ends where the first block begins after so many of its instructions, or never
 * if there are 0. */
void turn_begins(core *c, UWord instructions);

/* The thread goes on. Its close code is translated, if it runs some. */
void close_code_is_made(void);

/* A place between two instructions of a block, and what is to be added to the counts of what
 * happened before it. */
typedef struct { UShort kind; Int amount; } pending;
typedef struct {
    open_line line;
    Addr pc, next; /* pc: the instruction before in this block, or 0 */
    UShort count;
    pending all[];
} leaving;

/* Called by generated code. */
void close_code_is_next(void);
void block_is_left(const leaving *p);
void threshold_passes(const leaving *p);
void turn_ends(Addr next);

#endif
