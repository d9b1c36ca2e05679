/* The calls of followed functions that a thread is in.
 *
 * A call begins where the function does, with its return address on top of the stack, and is left
 * when the stack is shorter than that: by a return, a jump out (longjmp) or an exception. That is
 * looked at behind returns and jumps to computed places. A function that another one jumps to is
 * called by that one, and left with it. */
#ifndef FRAMES_H
#define FRAMES_H
#include "code.h"
#include "functions.h"

/* Code for a block: at the beginning of a function, and at the end of the block. */
void code_enters_function(code *c);
void code_leaves_functions(code *c, const IRSB *in);

/* The counts of a core in calls of followed functions, or all if none is followed. */
void frames_counts(const core *c, ULong counts[ALL_KINDS]);

/* Adds what open calls did so far to the profile, or takes that away; lets them begin here. */
void frames_settle(const core *c, Bool adds);
void frames_begin_anew(core *c);

/* The thread ends, and all its calls. */
void frames_end(core *c);

/* Called by generated code, with the stack pointer. */
void frames_enter(function *f, Addr sp);
void frames_leave(Addr sp);

#endif
