/* Goes through a block of the program, and adds the code that counts. */
#include "code.h"

#include "pub_tool_libcassert.h"
#include "pub_tool_libcbase.h"
#include "pub_tool_machine.h"
#include "pub_tool_mallocfree.h"

#include "decode.h"
#include "events.h"
#include "frames.h"
#include "marks.h"
#include "profile.h"
#include "slots.h"
#include "thresholds.h"
#include "words.h"

Addr library_first, library_end, counting_from;
Bool has_library;

#define OPERANDS_OF_REP 2
#define LINE_BITS 6
#define SIZE_OF_NEAR 6        /* of a conditional branch with a displacement of four bytes */
#define OPCODES_OF_LOOPS 0xE0 /* and of jrcxz */

static UInt kind_of_class(const code *c) { return c->class & CLASS_BITS; }
static Bool is_conditional(const code *c) {
    return c->is_counted && kind_of_class(c) == CONDITIONAL;
}
static Bool is_branch(const code *c) {
    return kind_of_class(c) >= CONDITIONAL && kind_of_class(c) <= RETURN;
}
static Bool is_of_library(Addr pc) { return pc >= library_first && pc < library_end; }

/* -- instructions -- */

/* Where an instruction that repeats itself ends, the next one begins a line anew. */
static void forgets_lines(code *c, IRExpr *guard) {
    for (UInt i = 0; i < OPERANDS_OF_REP && words.has_rep_lines; i++) {
        ULong at = OFFSET(repeated) + 8UL * i;
        IRExpr *none = code_word(0);
        if (guard) none = code_make(c, Ity_I64, IRExpr_ITE(guard, none, code_load_at(c, at)));
        code_store_at(c, at, none);
    }
}

static void branch_ends(code *c, Bool is_known, Addr next) {
    static const UChar kinds[] = {[JUMP] = KL_JUMPS, [CALL] = KL_CALLS, [RETURN] = KL_RETURNS};
    UInt class = kind_of_class(c);
    if (class == JUMP || class == CALL || class == RETURN) {
        code_happens(c, kinds[class], 1);
        code_notes(c, kinds[class], c->pc, 1, IN_ACCESS, NULL);
    }
    if (!is_conditional(c) || c->is_branch_seen) return;
    /* What it does was known when it was translated. */
    Bool taken = is_known && next != c->pc + c->size;
    if (!code_counts_outcomes()) code_happens(c, taken ? KL_TAKEN : KL_NOT_TAKEN, 1);
    code_branches(c, IRExpr_Const(IRConst_U1(taken)));
    c->line = c->number + 1;
}

/* The instruction is through, and `next` comes after it, if that is known. */
static void instruction_ends(code *c, Bool is_known, Addr next) {
    if (!c->is_counted) return;
    if (c->class & REPEATS && is_known && next == c->pc + c->size) {
        code_happens(c, KL_INSTRUCTIONS, 1);
        if (words.has_further) code_happens(c, REPEATED, 1);
        forgets_lines(c, NULL);
    }
    branch_ends(c, is_known, next);
}

/* What is not counted by most units is on the tape only if its lines have a code. */
static void notes_if_coded(code *c, UInt kind, UInt amount, UInt phase, IRExpr *guard) {
    if (words.codes[kind].count) code_notes(c, kind, c->pc, amount, phase, guard);
}

/* The operations on each element. A fused one is two. */
static void computes_elements(code *c, UInt class) {
    static const UChar elements[] = {
        [SCALAR_DOUBLE] = 1, [SCALAR_SINGLE] = 1, [DOUBLE_128] = 2, [SINGLE_128] = 4,
        [DOUBLE_256] = 4,    [SINGLE_256] = 8,    [DOUBLE_512] = 8, [SINGLE_512] = 16};
    if (class == X87) return;
    operation does = operation_of_bytes((const UChar *)c->pc, c->size);
    if (does == DOES_OTHER) return;
    Bool of_doubles =
        class == SCALAR_DOUBLE || class == DOUBLE_128 || class == DOUBLE_256 || class == DOUBLE_512;
    UInt kind = (of_doubles ? KL_ADDED_DOUBLES : KL_ADDED_SINGLES) + (UInt)does,
         amount = elements[class] * (does == FUSES ? 2u : 1u);
    code_happens(c, kind, (Int)amount);
    notes_if_coded(c, kind, amount, IN_FETCH, NULL);
}

static void instruction_computes(code *c) {
    UInt class = kind_of_class(c);
    if (class < SCALAR_DOUBLE || class > X87) return;
    UInt kind = KL_SCALAR_DOUBLES + class - SCALAR_DOUBLE, amount = c->class & TWICE ? 2 : 1;
    code_happens(c, kind, (Int)amount);
    code_notes(c, kind, c->pc, amount, IN_FETCH, NULL);
    computes_elements(c, class);
}

/* Counting begins at the first entry of a function. Where this is inside of a block, it begins with
 * the next one. */
static void begins_here(code *c) {
    if (c->pc == counting_from && !counting_has_begun())
        code_call(c, NULL, "counting_begins", counting_begins, mkIRExprVec_0());
}

static void instruction_begins(code *c, Addr pc, UInt size) {
    if (c->pc) instruction_ends(c, True, pc);
    c->before = c->is_counted ? c->pc : 0;
    if (c->is_counted) c->number++;
    c->is_counted = !is_of_library(pc);
    c->pc = pc;
    c->size = size;
    c->is_branch_seen = False;
    c->loads = 0;
    begins_here(c);
    if (!c->is_counted) return;
    code_enters_function(c);
    profile_sees_instruction(c);
    code_begins(c);
    code_checks_behind(c, pc);
    c->class = class_of_bytes((const UChar *)pc, size);
    c->is_locked = locks_memory((const UChar *)pc, size);
    c->of->instructions[c->number] = (instruction){pc, (UShort)size, (UShort)c->segment};
    if (!(c->class & REPEATS)) code_happens(c, KL_INSTRUCTIONS, 1);
    if (words.has_further && c->class & REPEATS) code_happens(c, TURNS, 1);
    if (words.has_further && c->class & LOCKS) code_happens(c, LOCKED, 1);
    if (words.has_model) code_fetches(c);
    instruction_computes(c);
    if (is_branch(c) && !is_conditional(c)) code_ends_line(c);
}

/* -- exits -- */

/* Whether a branch is counted by its guard. If not it is counted as if it left, and put right
 * behind the exit. */
static Bool is_by_guard(void) {
    return has_predictor() || words.has_tape || is_armed[KL_TAKEN] || is_armed[KL_NOT_TAKEN];
}

static void branch_leaves(code *c, IRExpr *guard, Bool leaves_taken) {
    c->is_branch_seen = True;
    if (!is_by_guard()) {
        code_happens(c, leaves_taken ? LEFT_TAKEN : LEFT_NOT_TAKEN, 1);
        return;
    }
    IRExpr *not_guard = code_make(c, Ity_I1, IRExpr_Unop(Iop_Not1, guard)),
           *taken = leaves_taken ? guard : not_guard;
    if (!code_counts_outcomes()) {
        code_may_happen(c, KL_TAKEN, taken);
        code_may_happen(c, KL_NOT_TAKEN, leaves_taken ? not_guard : guard);
    }
    code_branches(c, taken);
    c->line = c->number + 1;
}

/* Whether a branch that goes to the instruction behind it, taken or not, is taken where VEX leaves
 * the block for it: so it is but for conditions with an odd code, since VEX asks for their
 * opposites. */
static Bool goes_on_taken(const code *c) {
    const UChar *end = (const UChar *)(c->pc + c->size),
                *displacement = end - (c->size >= SIZE_OF_NEAR ? 4 : 1);
    for (const UChar *byte = displacement; byte < end; byte++)
        if (*byte) return False;
    UChar opcode = displacement[-1];
    return (opcode & 0xF0) == OPCODES_OF_LOOPS || !(opcode & 1);
}

static void leave(code *c, IRStmt *exit) {
    IRExpr *guard = exit->Ist.Exit.guard;
    Addr to = exit->Ist.Exit.dst->Ico.U64;
    Bool leaves_taken = to != c->pc + c->size;
    Bool is_branch_now = is_conditional(c) && !c->is_branch_seen && exit->Ist.Exit.jk == Ijk_Boring;
    if (is_branch_now && !leaves_taken) leaves_taken = goes_on_taken(c);
    if (is_branch_now) branch_leaves(c, guard, leaves_taken);
    else if (c->is_counted) {
        if (c->class & REPEATS && !leaves_taken) {
            code_may_happen(c, KL_INSTRUCTIONS, guard);
            if (words.has_further) code_may_happen(c, REPEATED, guard);
            forgets_lines(c, guard);
        }
        code_leaves_line_open(c, guard, c->class & REPEATS && to == c->pc);
    }
    code_flushes(c);
    addStmtToIRSB(c->out, exit);
    if (is_branch_now && !is_by_guard())
        code_happens(c, leaves_taken ? STAYED_NOT_TAKEN : STAYED_TAKEN, 1);
}

/* -- accesses -- */

static void count_access(code *c, const access *a, UInt kind) {
    if (a->guard) code_may_happen(c, kind, a->guard);
    else code_happens(c, kind, 1);
}

/* An access in the line in which the last turn had one is none. What is stored has the second
 * place. */
static void guards_by_line(code *c, access *a) {
    UInt place = a->loads ? c->loads++ : 1;
    if (place >= OPERANDS_OF_REP) return;
    ULong first = OFFSET(repeated), at = first + 8UL * place;
    IRExpr *number = code_shifted(c, Iop_Shr64, a->address, LINE_BITS);
    IRExpr *line = code_two(c, Iop_Add64, number, code_word(1));
    a->guard = code_is(c, Iop_CmpNE64, line, code_load_at(c, at));
    code_store_at(c, at, line);
    if (a->stores) code_store_at(c, first + 8, line);
}

/* Adds what an access counts. */
static void see_access(code *c, access *a) {
    if (!c->is_counted || (!a->loads && !a->stores)) return;
    if (words.has_rep_lines && c->class & REPEATS) guards_by_line(c, a);
    if (a->loads) count_access(c, a, KL_LOADS);
    if (a->stores) count_access(c, a, KL_STORES);
    if (a->loads && c->is_locked) {
        count_access(c, a, KL_LOCKED_LOADS);
        notes_if_coded(c, KL_LOCKED_LOADS, 1, IN_ACCESS, a->guard);
    }
    if (words.has_further && a->loads && a->stores) code_happens(c, MODIFIES, 1);
    code_accesses(c, a);
}

/* -- the block -- */

/* Makes what is known of the block before its code is. */
static block *block_of(Addr pc, const IRSB *sb) {
    block *b = new_block(pc, is_close);
    Addr first = 0;
    UInt size = 0;
    for (Int i = 0; i < sb->stmts_used; i++) {
        const IRStmt *s = sb->stmts[i];
        if (s->tag != Ist_IMark || is_of_library(s->Ist.IMark.addr)) continue;
        if (!b->count++) first = s->Ist.IMark.addr, size = s->Ist.IMark.len;
    }
    b->instructions = block_memory(b, b->count * sizeof *b->instructions);
    profile_begins_block(b);
    b->begins_repeated = b->count && class_of_bytes((const UChar *)first, size) & REPEATS;
    return b;
}

static void keep_shares(code *c) {
    c->of->shares_count = c->shares_count;
    c->of->shares = block_memory(c->of, c->shares_count * sizeof *c->shares);
    VG_(memcpy)(c->of->shares, c->shares, c->shares_count * sizeof *c->shares);
}

static void block_ends(code *c, const IRSB *in) {
    Bool is_known = in->next->tag == Iex_Const;
    Addr next = is_known ? (Addr)in->next->Iex.Const.con->Ico.U64 : 0;
    instruction_ends(c, is_known, next);
    if (in->jumpkind == Ijk_NoDecode)
        code_call(c, NULL, "instruction_is_refused", instruction_is_refused,
                  mkIRExprVec_1(code_word(next)));
    if (c->is_counted)
        code_leaves_line_open(c, NULL, c->class & REPEATS && is_known && next == c->pc);
    code_flushes(c);
    code_leaves_functions(c, in);
    code_checks_beginning(c);
    keep_shares(c);
}

IRSB *instrument(VgCallbackClosure *closure, IRSB *in, const VexGuestLayout *guest_layout,
                 const VexGuestExtents *extents, const VexArchInfo *host, IRType guest_word,
                 IRType host_word) {
    static share *shares;
    static UInt shares_room;
    /* The first block is translated before the core says that the program goes on. */
    program_is_loaded();
    code whole = {.out = deepCopyIRSBExceptStmts(in),
                  .of = block_of(closure->nraddr, in),
                  .first = closure->readdr,
                  .shares = shares,
                  .shares_room = shares_room},
         *c = &whole;
    c->is_redirected = closure->readdr != closure->nraddr;
    Int i = 0;
    (void)guest_layout, (void)extents, (void)host, (void)guest_word, (void)host_word;
    while (i < in->stmts_used && in->stmts[i]->tag != Ist_IMark)
        addStmtToIRSB(c->out, in->stmts[i++]);
    for (; i < in->stmts_used; i++) {
        IRStmt *s = in->stmts[i];
        if (s->tag == Ist_Exit) {
            leave(c, s);
            continue;
        }
        access a;
        if (marks_access(s, &a)) {
            see_access(c, &a);
            continue;
        }
        addStmtToIRSB(c->out, s);
        if (s->tag == Ist_IMark) instruction_begins(c, s->Ist.IMark.addr, s->Ist.IMark.len);
    }
    block_ends(c, in);
    shares = c->shares;
    shares_room = c->shares_room;
    return c->out;
}
