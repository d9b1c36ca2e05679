/* The core on which a thread runs: its counts, and its own parts of the modelled machine. Generated
 * code reads and writes them through `current`. */
#ifndef CORE_H
#define CORE_H
#include "pub_tool_basics.h"
#include "pub_tool_threadstate.h"

#include "kinds.h"
#include "machine.h"

#define NEVER (1LL << 62)
#define NO_CALL (~0UL) /* no stack pointer is above it */

typedef struct block block;
typedef struct tape tape;
typedef struct frames frames;

typedef struct {
    ULong counts[ALL_KINDS];
    Long left[KL_KINDS]; /* occurrences until an armed threshold is passed */
    /* The number of instructions at which a block begins by a call of tape_sees_block. */
    Long check_at;
    /* The number of instructions at which the thread goes to the stub in place of the next
     * block. */
    Long turn_at;
    Int *rooms;          /* the occurrences for which the tape's lines have room, by their slots */
    const block *at;     /* the block that runs */
    Addr last;           /* the last instruction of the block before, if something is armed */
    /* Below 0: a threshold was passed, or the machine brought one near. The block is left behind
     * the instruction that runs. */
    Long leaves;
    Bool is_uncounted;     /* what runs here is not counted */
    cache l1d, l1i, l2, dtlb, itlb;
    predictor branches;
    /* The lines, from 1 on, at which the two operands of an instruction that repeats itself are; 0
     * for none. */
    Addr repeated[2];

    UInt number; /* the first thread is 0, and each gets the next number when it begins */
    Bool is_used, is_in_library, is_stopped;
    Long period[KL_KINDS];
    kl_passed passed;
    /* The counts when the thread stopped, and what happened while it was. */
    ULong at_stop[ALL_KINDS], dropped[ALL_KINDS];
    Long left_at_stop[KL_KINDS];
    tape *tape;
    ULong profiled; /* 1 if what happens now belongs to the profile, else 0 */
    Addr top; /* the stack pointer of the innermost followed call (frames.h), NO_CALL without one */
    frames *frames;
} core;

/* Where parts of a core begin that have their sizes from the tool's words. */
typedef struct { UInt l1d, l1i, dtlb, itlb, counters; } core_layout;
extern core_layout layout;

extern core *current;
extern ThreadId running;
extern cache shared_l3;

void cores_begin(void);

/* The core of a thread, NULL if it has none. */
core *core_of(ThreadId tid);

void core_thread_begins(ThreadId tid);
void core_thread_ends(ThreadId tid);

/* What a thread runs from now on is its own, or nobody's. */
void set_current(ThreadId tid);

/* Counting begins with this instruction. */
Bool counting_has_begun(void);
void counting_begins(void);

/* This process counts no more: it is a fork of the one that does. */
void counting_ends(void);

/* A threshold is passed, and the stub is not called yet. */
Bool core_has_passed(const core *c);

/* Something happened that generated code did not count. */
void core_takes(core *c, UInt kind, Long amount);

void core_starts(core *c);
void core_stops(core *c);

/* The counts of a core without what is derived from others, and all counts while the thread was not
 * stopped. */
void core_counts(const core *c, ULong counts[ALL_KINDS]);

/* All counts of a core so far, with those that are sums of others, whether it was stopped or not;
 * and those of all threads. */
void core_sums(const core *c, ULong all[ALL_KINDS]);

/* Adds what is counted in other kinds to those that have a name. */
void kinds_add_up(ULong all[ALL_KINDS]);

void all_counts(ULong all[ALL_KINDS]);

/* The cycles of a core, whether it counted or not. */
ULong cycles_of(const core *c);

#endif
