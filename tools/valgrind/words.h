/* The words of the tool. */
#ifndef WORDS_H
#define WORDS_H
#include "pub_tool_basics.h"

#include "kinds.h"
#include "machine.h"

/* Cycles beside the one of each instruction: of an access that the second level, the third or the
 * memory serves, of a page that is not in its buffer, and of a branch that was predicted
 * wrongly. */
enum { SERVED_BY_L2, SERVED_BY_L3, SERVED_BY_MEMORY, PAGE_MISSED, BRANCH_ERRED, COSTS };
#define MOST_COST 10000

typedef struct {
    Bool has_model;   /* caches, translation buffers and the predictor */
    Bool has_profile; /* of functions and lines (profile.h) */
    Bool is_partial;  /* only some kinds count: no library can be served */
    Bool has_counts;  /* of all kinds, for requests */
    Bool checks_blocks; /* Libvex looks at each whether it is well formed */
    Bool has_further; /* kinds that only other tools count, and accesses as they see them */
    Bool has_tape;    /* lines of a stream */
    Bool is_each;     /* a line for each occurrence */
    /* An instruction that repeats itself accesses each line once, and not in each turn. */
    Bool has_rep_lines;
    Bool is_stopped;  /* until START */
    /* The program has the system's random bytes, and not those of its environment's padding. */
    Bool keeps_random;
    Bool shows_totals;
    Bool counts_library; /* as if it were the program's own, to measure it */
    /* ONE_THREAD: a second one ends the run */
    enum { ANY_THREAD, FIRST_THREAD, ONE_THREAD } threads;
    Int stream, report;     /* descriptors, or -1 */
    const HChar *streams;   /* a file for each thread, whose number stands for %t */
    /* addresses in the program's file: its entry, and where counting begins, or 0 */
    Addr entry, from;
    Bool from_entry;        /* counting begins at the entry of each program */
    const HChar *totals, *process; /* the folder of totals, and the process (totals.h) */
    ULong kinds;            /* a bit for each that counts */
    Long mhz, window;       /* window: instructions */
    Int most_amount;        /* of a line */
    const kind_codes *codes;
    shape l1d, l1i, l2, l3, dtlb, itlb;
    Int predictor_bits; /* 0: there is none */
    ULong costs[COSTS];
} all_words;

extern all_words words;

Bool words_take(const HChar *word);

/* All words are taken. */
void words_end(void);

static inline Bool counts_kind(UInt kind) { return words.kinds >> kind & 1; }
static inline Bool has_predictor(void) { return words.has_model && words.predictor_bits; }
void words_print(void);

/* Each kind with its number, its name, and the head of its line by the codes of
 * examples/recorded.unit, or - if it has none. */
void words_print_kinds(void);

#endif
