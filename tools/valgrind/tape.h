/* The lines of a stream (docs/FORMATS.md, The stream): occurrences of one kind at one place are
 * gathered until a line is full, or the window ends.
 *
 * Each kind at each place has a slot. Generated code takes occurrences from the slot's room by
 * itself; when there is no room it calls, and then a line begins or is written. Where a window ends
 * inside of a block, or a line of instructions goes on from one block to the next, the block runs
 * slowly: each slot is without room there, so that each of its occurrences calls, and all happen in
 * the program's order. */
#ifndef TAPE_H
#define TAPE_H
#include "block.h"


tape *new_tape(core *c);
void tape_ends(core *c);

/* Where in its block something happens: as a part of fetching an instruction, or as an access of it
 * or after it. */
typedef struct { UInt slot; UShort instruction; UChar is_fetch, amount; } item;

/* Called by generated code. A pair is what a branch is if it is not taken, and if it is. */
void tape_sees_block(const block *b);
void tape_sees_item(const item *i);
void tape_sees_amount(const item *i, ULong amount);
void tape_sees_branch(const item *pair, ULong taken);
/* A straight line of instructions ends: so many instructions, and a cycle for each. */
void tape_sees_line(const item *i);

/* The block is left while a straight line of instructions goes on behind it, or by a turn of an
 * instruction that repeats itself. */
/* count: the instructions that begun; line: the first one of the straight line */
typedef struct { const block *of; UShort count, line; Bool is_turn; } open_line;
void tape_sees_open_line(const open_line *o);

/* Notes something of the model. */
void tape_notes(core *c, UInt slot, UInt amount, UInt instruction_number, Bool is_fetch);

/* An instruction of the block faults. It has its lines, as its access has. */
void tape_sees_fault(core *c, const block *b, UInt number);

void tape_leaves_block(core *c);
void tape_starts(core *c);
void tape_stops(core *c);

/* The window ends here: all lines are written. */
void tape_ends_window(core *c);

/* All that was written, by kinds. */
const ULong *tape_totals(void);

/* Writes what was gathered for the files. */
void tape_flushes(core *c);

#endif
