/* The code that is added to a block of the program. Each function adds some. */
#ifndef CODE_H
#define CODE_H
#include "pub_tool_tooliface.h"

#include "block.h"
#include "tape.h"

typedef struct {
    IRSB *out;
    block *of;
    IRExpr *base, *rooms;     /* the core, once the block counts, and its rooms */
    Int pending[ALL_KINDS];   /* occurrences that are not added to the counts yet */
    /* This instruction; the first of its straight line; the exits so far. */
    UInt number, line, segment;
    /* The block's first instruction, this one, and the one before it in this block. */
    Addr first, pc, before;
    UInt size;
    UChar class;
    UInt loads;               /* of an instruction that repeats itself, so far */
    Bool is_counted, is_branch_seen, is_locked;
    Addr fetched_page, fetched_line; /* of the last fetch in this block */
    Bool is_redirected;       /* Valgrind runs this code in place of the program's */
    /* Since the block could be left; only if the machine can pass a threshold. */
    Bool asks_machine;
    ULong most[KL_KINDS];     /* occurrences in the block beside those that the machine makes */
    Int beginning;            /* the number of statements before which it can be left, or 0 */
    UInt shares_count, shares_room;
    share *shares;
} code;

#define OFFSET(field) __builtin_offsetof(core, field)

/* Expressions. */
IRExpr *code_make(code *c, IRType type, IRExpr *e);
IRExpr *code_word(ULong value);
IRExpr *code_two(code *c, IROp op, IRExpr *a, IRExpr *b);
IRExpr *code_is(code *c, IROp op, IRExpr *a, IRExpr *b);
IRExpr *code_shifted(code *c, IROp op, IRExpr *a, UInt bits);
IRExpr *code_load(code *c, IRExpr *address);
IRExpr *code_load_at(code *c, ULong offset); /* of the core */
void code_store_at(code *c, ULong offset, IRExpr *value);
void code_add_at(code *c, ULong offset, IRExpr *amount);
IRExpr *code_widened(code *c, IRExpr *bit);

/* A call, always or if the guard says so. */
void code_call(code *c, IRExpr *guard, const HChar *name, void *function, IRExpr **arguments);

/* Occurrences of the instruction: always, or if the guard says so. */
void code_happens(code *c, UInt kind, Int amount);
void code_may_happen(code *c, UInt kind, IRExpr *guard);

/* The same on the tape, where it is one. */
enum { IN_FETCH, IN_ACCESS };
void code_notes(code *c, UInt kind, Addr pc, UInt amount, UInt phase, IRExpr *guard);
void code_ends_line(code *c);
void code_leaves_line_open(code *c, IRExpr *guard, Bool is_turn);

/* Takes occurrences from rooms of the tape without a call. The answer is not 0 if there was no
 * room, and then something has to call. */
item code_item(const code *c, UInt kind, Addr pc, UInt amount, UInt phase);
IRExpr *code_takes(code *c, const item *i, IRExpr *amount);
IRExpr *code_takes_line(code *c, item *line);
IRExpr *code_takes_branch(code *c, item pair[2], IRExpr *taken);
IRExpr *code_or(code *c, IRExpr *a, IRExpr *b); /* NULL is 0 */

/* Adds what is pending to the counts, before the block is left. */
void code_flushes(code *c);

/* The block begins to count. */
void code_begins(code *c);

/* Leaves the block before the instruction at `next` if one before it passed a threshold; in code
 * that is not close, if the machine did, or brought one near. */
void code_checks_behind(code *c, Addr next);
/* The machine may have been asked. */
void code_asks_machine(code *c);
/* All that the block has is known. It is left at its beginning if a threshold is near there, or was
 * passed. */
void code_checks_beginning(code *c);

/* The machine is asked. */
void code_fetches(code *c);
typedef struct {
    IRExpr *address, *guard;
    UInt size;
    Bool loads, stores;
    IRExpr *mask; /* a bit for each element that is accessed, or NULL */
    UInt width;   /* of an element */
} access;
void code_accesses(code *c, const access *a);
void code_branches(code *c, IRExpr *taken); /* a conditional branch, behind its straight line */
/* This counts them too: nothing looks at each branch when it happens. */
Bool code_counts_outcomes(void);

IRSB *instrument(VgCallbackClosure *closure, IRSB *in, const VexGuestLayout *guest_layout,
                 const VexGuestExtents *extents, const VexArchInfo *host, IRType guest_word,
                 IRType host_word);

/* Where the library's code is, which is not counted; and where counting begins. */
extern Addr library_first, library_end, counting_from;

/* A library in the program asks for counts. */
extern Bool has_library;

#endif
