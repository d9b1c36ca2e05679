#include "code.h"

#include "pub_tool_libcassert.h"
#include "pub_tool_libcbase.h"
#include "pub_tool_guest.h"
#include "pub_tool_machine.h"
#include "pub_tool_mallocfree.h"

#include "profile.h"
#include "tape.h"
#include "slots.h"
#include "thresholds.h"
#include "words.h"

IRExpr *code_make(code *c, IRType type, IRExpr *e) {
    IRTemp t = newIRTemp(c->out->tyenv, type);
    addStmtToIRSB(c->out, IRStmt_WrTmp(t, e));
    return IRExpr_RdTmp(t);
}

IRExpr *code_word(ULong value) { return IRExpr_Const(IRConst_U64(value)); }
IRExpr *code_two(code *c, IROp op, IRExpr *a, IRExpr *b) {
    return code_make(c, Ity_I64, IRExpr_Binop(op, a, b));
}
IRExpr *code_is(code *c, IROp op, IRExpr *a, IRExpr *b) {
    return code_make(c, Ity_I1, IRExpr_Binop(op, a, b));
}
IRExpr *code_shifted(code *c, IROp op, IRExpr *a, UInt bits) {
    return code_two(c, op, a, IRExpr_Const(IRConst_U8((UChar)bits)));
}
IRExpr *code_load(code *c, IRExpr *address) {
    return code_make(c, Ity_I64, IRExpr_Load(Iend_LE, Ity_I64, address));
}
IRExpr *code_widened(code *c, IRExpr *bit) {
    return code_make(c, Ity_I64, IRExpr_Unop(Iop_1Uto64, bit));
}

static IRExpr *place(code *c, ULong offset) {
    return code_two(c, Iop_Add64, c->base, code_word(offset));
}

IRExpr *code_load_at(code *c, ULong offset) { return code_load(c, place(c, offset)); }
void code_store_at(code *c, ULong offset, IRExpr *value) {
    addStmtToIRSB(c->out, IRStmt_Store(Iend_LE, place(c, offset), value));
}
void code_add_at(code *c, ULong offset, IRExpr *amount) {
    code_store_at(c, offset, code_two(c, Iop_Add64, code_load_at(c, offset), amount));
}

void code_call(code *c, IRExpr *guard, const HChar *name, void *function, IRExpr **arguments) {
    IRDirty *d = unsafeIRDirty_0_N(0, name, VG_(fnptr_to_fnentry)(function), arguments);
    if (guard) d->guard = guard;
    addStmtToIRSB(c->out, IRStmt_Dirty(d));
}

/* -- counts -- */

static ULong count_of(UInt kind) { return OFFSET(counts) + 8UL * kind; }
static ULong left_of(UInt kind) { return OFFSET(left) + 8UL * kind; }
static Bool is_kept(UInt kind) {
    return kind == KL_INSTRUCTIONS || (words.has_counts && counts_kind(kind));
}
static Bool counts_down(UInt kind) { return kind < KL_KINDS && is_armed[kind]; }

static void share_out(code *c, UInt kind, Int amount) {
    if (c->shares_count == c->shares_room) {
        c->shares_room = 2 * c->shares_room + 64;
        c->shares = VG_(realloc)("code", c->shares, c->shares_room * sizeof *c->shares);
    }
    c->shares[c->shares_count++] =
        (share){(UShort)c->number, (UShort)c->segment, (UShort)kind, (Short)amount};
}

void code_happens(code *c, UInt kind, Int amount) {
    if (!is_kept(kind)) return;
    c->pending[kind] += amount;
    share_out(c, kind, amount);
    if (kind < KL_KINDS) c->most[kind] += (ULong)amount;
}

static void takes_from_left(code *c, UInt kind, IRExpr *amount) {
    IRExpr *left = code_two(c, Iop_Sub64, code_load_at(c, left_of(kind)), amount);
    code_store_at(c, left_of(kind), left);
    if (!c->of->is_close) return;
    IRExpr *sign = code_two(c, Iop_Sub64, left, code_word(1));
    code_store_at(c, OFFSET(leaves), code_two(c, Iop_Or64, code_load_at(c, OFFSET(leaves)), sign));
}

void code_may_happen(code *c, UInt kind, IRExpr *guard) {
    if (!is_kept(kind)) return;
    IRExpr *times = code_widened(c, guard);
    code_add_at(c, count_of(kind), times);
    code_profiles_guard(c, kind, times);
    if (kind < KL_KINDS) c->most[kind]++;
    if (counts_down(kind)) takes_from_left(c, kind, times);
    if (kind == KL_INSTRUCTIONS && is_armed[KL_CYCLES]) takes_from_left(c, KL_CYCLES, times);
}

/* The kind that code counts in place of an armed one. */
static UInt counted_for(UInt kind) { return kind == KL_CYCLES ? KL_INSTRUCTIONS : kind; }

void code_flushes(code *c) {
    for (UInt kind = 0, found = 0; kind < ALL_KINDS && !found; kind++)
        if (c->pending[kind]) code_profiles_segment(c), found = 1;
    for (UInt i = 0; i < armed_count; i++) {
        Int amount = c->pending[counted_for(armed_kinds[i])];
        if (amount) takes_from_left(c, armed_kinds[i], code_word((ULong)(Long)amount));
    }
    for (UInt kind = 0; kind < ALL_KINDS; kind++) {
        if (c->pending[kind])
            code_add_at(c, count_of(kind), code_word((ULong)(Long)c->pending[kind]));
        c->pending[kind] = 0;
    }
    if (armed_count && c->is_counted) code_store_at(c, OFFSET(last), code_word(c->pc));
    c->segment++;
}

/* -- the tape -- */

item code_item(const code *c, UInt kind, Addr pc, UInt amount, UInt phase) {
    return (item){slot_of(kind, pc), (UShort)c->number, phase == IN_FETCH, (UChar)amount};
}

IRExpr *code_or(code *c, IRExpr *a, IRExpr *b) {
    return !a ? b : !b ? a : code_two(c, Iop_Or64, a, b);
}

/* Takes an amount of 32 bits from the room at a place. */
static IRExpr *take_room(code *c, IRExpr *where, IRExpr *amount) {
    IRExpr *room = code_make(
        c, Ity_I32,
        IRExpr_Binop(Iop_Sub32, code_make(c, Ity_I32, IRExpr_Load(Iend_LE, Ity_I32, where)),
                     amount));
    addStmtToIRSB(c->out, IRStmt_Store(Iend_LE, where, room));
    return code_make(
        c, Ity_I64,
        IRExpr_Unop(
            Iop_32Uto64,
            code_make(c, Ity_I32, IRExpr_Binop(Iop_Shr32, room, IRExpr_Const(IRConst_U8(31))))));
}

static IRExpr *room_of(code *c, UInt slot) {
    return code_two(c, Iop_Add64, c->rooms, code_word(4UL * slot));
}

IRExpr *code_takes(code *c, const item *i, IRExpr *amount) {
    return take_room(c, room_of(c, i->slot),
                     amount ? code_make(c, Ity_I32, IRExpr_Unop(Iop_64to32, amount))
                            : IRExpr_Const(IRConst_U32(i->amount)));
}

/* The rooms of instructions and of cycles stand side by side, and are changed at once. */
IRExpr *code_takes_line(code *c, item *line) {
    ULong amount = c->number + 1 - c->line;
    *line = code_item(c, KL_INSTRUCTIONS, c->of->instructions[c->line].pc, (UInt)amount, IN_FETCH);
    IRExpr *where = room_of(c, line->slot),
           *both = code_two(c, Iop_Sub64, code_load(c, where), code_word(amount | amount << 32));
    addStmtToIRSB(c->out, IRStmt_Store(Iend_LE, where, both));
    return code_two(c, Iop_And64, both, code_word(0x8000000080000000UL));
}

IRExpr *code_takes_branch(code *c, item pair[2], IRExpr *taken) {
    pair[0] = code_item(c, KL_NOT_TAKEN, c->pc, 1, IN_ACCESS);
    pair[1] = code_item(c, KL_TAKEN, c->pc, 1, IN_ACCESS);
    IRExpr *at =
        code_make(c, Ity_I64,
                  IRExpr_ITE(taken, code_word(4UL * pair[1].slot), code_word(4UL * pair[0].slot)));
    return take_room(c, code_two(c, Iop_Add64, c->rooms, at), IRExpr_Const(IRConst_U32(1)));
}

static IRExpr *is_not_0(code *c, IRExpr *value) {
    return code_is(c, Iop_CmpNE64, value, code_word(0));
}

void code_notes(code *c, UInt kind, Addr pc, UInt amount, UInt phase, IRExpr *guard) {
    if (!words.has_tape) return;
    item *i = block_memory(c->of, sizeof *i);
    *i = code_item(c, kind, pc, amount, phase);
    IRExpr *where = code_word((Addr)i), *times = guard ? code_widened(c, guard) : NULL,
           *is_full = is_not_0(c, code_takes(c, i, times));
    if (guard)
        code_call(c, is_full, "tape_sees_amount", tape_sees_amount, mkIRExprVec_2(where, times));
    else code_call(c, is_full, "tape_sees_item", tape_sees_item, mkIRExprVec_1(where));
}

void code_ends_line(code *c) {
    if (words.has_tape) {
        item *i = block_memory(c->of, sizeof *i);
        code_call(c, is_not_0(c, code_takes_line(c, i)), "tape_sees_line", tape_sees_line,
                  mkIRExprVec_1(code_word((Addr)i)));
    }
    c->line = c->number + 1;
}

void code_leaves_line_open(code *c, IRExpr *guard, Bool is_turn) {
    if (!words.has_tape || c->line > c->number) return;
    open_line *o = block_memory(c->of, sizeof *o);
    *o = (open_line){c->of, (UShort)(c->number + 1), (UShort)c->line, is_turn};
    code_call(c, guard, "tape_sees_open_line", tape_sees_open_line,
              mkIRExprVec_1(code_word((Addr)o)));
}

/* -- thresholds -- */

void code_asks_machine(code *c) { c->asks_machine = is_machine_armed; }

static const leaving *new_leaving(code *c, Addr next) {
    UInt count = 0;
    for (UInt kind = 0; kind < ALL_KINDS; kind++) count += c->pending[kind] != 0;
    leaving *p = block_memory(c->of, sizeof *p + count * sizeof *p->all);
    *p = (leaving){.line = {c->of, (UShort)c->number, (UShort)c->line, False},
                   .pc = c->before,
                   .next = next,
                   .count = 0};
    for (UInt kind = 0; kind < ALL_KINDS; kind++)
        if (c->pending[kind]) p->all[p->count++] = (pending){(UShort)kind, c->pending[kind]};
    return p;
}

static void goes_to(code *c, IRExpr *guard, IRJumpKind how, Addr to) {
    addStmtToIRSB(c->out, IRStmt_Exit(guard, how, IRConst_U64(to),
                                      __builtin_offsetof(VexGuestAMD64State, guest_RIP)));
}

static IRExpr *is_below_0(code *c, IRExpr *value) {
    return code_is(c, Iop_CmpLT64S, value, code_word(0));
}

/* Below 0 if no more is left of a kind than this. */
static IRExpr *is_at_most(code *c, UInt kind, ULong most) {
    return code_two(c, Iop_Sub64, code_load_at(c, left_of(kind)), code_word(most + 1));
}

static void checks_closely(code *c, Addr next) {
    IRExpr *signs = NULL;
    for (UInt i = 0; i < armed_count; i++)
        signs =
            code_or(c, signs,
                    is_at_most(c, armed_kinds[i], (ULong)c->pending[counted_for(armed_kinds[i])]));
    IRExpr *guard = is_below_0(c, signs);
    code_call(c, guard, "threshold_passes", threshold_passes,
              mkIRExprVec_1(code_word((Addr)new_leaving(c, next))));
    goes_to(c, guard, Ijk_Boring, stub);
}

static void checks_machine(code *c, Addr next) {
    if (!c->asks_machine) return;
    c->asks_machine = False;
    IRExpr *guard = is_below_0(c, code_load_at(c, OFFSET(leaves)));
    code_call(c, guard, "block_is_left", block_is_left,
              mkIRExprVec_1(code_word((Addr)new_leaving(c, next))));
    goes_to(c, guard, Ijk_Boring, next);
}

void code_checks_behind(code *c, Addr next) {
    if (c->of->is_close) checks_closely(c, next);
    else checks_machine(c, next);
}

/* One test of all signs. What the block has none of was not passed unless `leaves` says so. */
static void checks_from_afar(code *c) {
    IRExpr *signs = code_load_at(c, OFFSET(leaves));
    for (UInt i = 0; i < armed_count; i++) {
        ULong most = c->most[counted_for(armed_kinds[i])];
        if (most) signs = code_or(c, signs, is_at_most(c, armed_kinds[i], most));
    }
    IRExpr *guard = is_below_0(c, signs);
    if (!c->is_redirected)
        code_call(c, guard, "close_code_is_next", close_code_is_next, mkIRExprVec_0());
    goes_to(c, guard, c->is_redirected ? Ijk_Boring : Ijk_NoRedir, c->first);
}

static void turn_round(IRStmt **from, IRStmt **end) {
    for (; from < end; from++) {
        IRStmt *s = *from;
        *from = *--end;
        *end = s;
    }
}

/* Moves the statements from a number on to their place before others. */
static void move(IRSB *sb, Int from, Int to) {
    turn_round(sb->stmts + to, sb->stmts + from);
    turn_round(sb->stmts + from, sb->stmts + sb->stmts_used);
    turn_round(sb->stmts + to, sb->stmts + sb->stmts_used);
}

void code_checks_beginning(code *c) {
    Int from = c->out->stmts_used;
    if (!armed_count || !c->beginning || c->of->is_close) return;
    checks_from_afar(c);
    move(c->out, from, c->beginning);
}

static void checks_turn(code *c) {
    if (!has_turns || c->of->begins_repeated || c->of->is_close) return;
    IRExpr *guard = code_is(c, Iop_CmpLE64S, code_load_at(c, OFFSET(turn_at)),
                            code_load_at(c, count_of(KL_INSTRUCTIONS)));
    code_call(c, guard, "turn_ends", turn_ends, mkIRExprVec_1(code_word(c->pc)));
    goes_to(c, guard, Ijk_Boring, stub);
}

/* -- the beginning -- */

/* Behind other instructions of the block registers may not be in their places. */
static Bool can_be_left(const code *c) { return stub && c->pc == c->first; }

void code_begins(code *c) {
    if (c->base) return;
    c->base = code_load(c, code_word((Addr)&current));
    if (can_be_left(c)) {
        checks_turn(c);
        c->beginning = c->out->stmts_used;
    }
    if (c->of->is_close) code_store_at(c, OFFSET(leaves), code_word(0));
    code_store_at(c, OFFSET(at), code_word((Addr)c->of));
    if (!words.has_tape) return;
    IRExpr *guard = NULL;
    if (!c->of->begins_repeated) {
        IRExpr *at_end = code_two(c, Iop_Add64, code_load_at(c, count_of(KL_INSTRUCTIONS)),
                                  code_word(c->of->count));
        guard = code_is(c, Iop_CmpLE64S, code_load_at(c, OFFSET(check_at)), at_end);
    }
    code_call(c, guard, "tape_sees_block", tape_sees_block, mkIRExprVec_1(code_word((Addr)c->of)));
    c->rooms = code_load_at(c, OFFSET(rooms));
}
