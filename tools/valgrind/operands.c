/* Valgrind's code for an instruction is not what the instruction does to memory: it takes some
 * operands in parts, reads again what a locked instruction changes, goes over memory for some that
 * have no operand there, and has no prefetching. And once it is optimised, loads are gone whose
 * value nobody uses. So each block is looked at before that. Where an operand is, a mark is put: a
 * store at an address that no program has. It is no more there when the block runs, since the code
 * that counts takes its place. */
#include "libvex.h"
#include "pub_tool_guest.h"
#include "pub_tool_libcassert.h"
#include "pub_tool_libcbase.h"
#include "pub_tool_mallocfree.h"

#include "decode.h"
#include "marks.h"
#include "words.h"

#define BYTES_OF_512 512
#define MOST_PARTS 128 /* of an instruction: xsave has 36 */

/* A part of an operand: what one statement does. */
typedef struct {
    Int at; /* the statement */
    IRExpr *address, *guard;
    const IRExpr *root; /* the address is this and an offset; NULL is 0 */
    Long offset;
    UInt size;
    Bool loads, stores;
} part;

/* An operand: a part, and what belongs to it. */
typedef struct {
    part of;
    Long first; /* the lowest offset of its parts */
    UInt count;
    IRExpr *mask;
} operand;

typedef struct {
    const IRSB *in;
    IRSB *out;
    const IRExpr **meanings; /* of the block's values */
    part parts[MOST_PARTS];
    operand operands[MOST_PARTS];
    UInt parts_count, operands_count;
} looking;

/* -- parts -- */

static UInt size_of(const IRSB *sb, const IRExpr *e) {
    return (UInt)sizeofIRType(typeOfIRExpr(sb->tyenv, e));
}

static UInt size_of_guarded(IRLoadGOp op) {
    IRType result, loaded;
    typeOfIRLoadGOp(op, &result, &loaded);
    return (UInt)sizeofIRType(loaded);
}

static part part_of_helper(const IRDirty *d) {
    Bool is_always = d->guard->tag == Iex_Const && d->guard->Iex.Const.con->Ico.U1;
    Bool loads = d->mFx == Ifx_Read || d->mFx == Ifx_Modify,
         stores = d->mFx == Ifx_Write || d->mFx == Ifx_Modify;
    return (part){.address = d->mAddr,
                  .guard = is_always ? NULL : d->guard,
                  .size = (UInt)d->mSize,
                  .loads = loads,
                  .stores = stores};
}

/* What a statement does to memory. */
static part part_of(const IRSB *sb, const IRStmt *s) {
    const part none = {0};
    switch (s->tag) {
    case Ist_WrTmp: {
        const IRExpr *e = s->Ist.WrTmp.data;
        return e->tag == Iex_Load ? (part){.address = e->Iex.Load.addr,
                                           .size = (UInt)sizeofIRType(e->Iex.Load.ty),
                                           .loads = True}
                                  : none;
    }
    case Ist_Store:
        return (part){
            .address = s->Ist.Store.addr, .size = size_of(sb, s->Ist.Store.data), .stores = True};
    case Ist_LoadG: {
        const IRLoadG *l = s->Ist.LoadG.details;
        return (part){
            .address = l->addr, .guard = l->guard, .size = size_of_guarded(l->cvt), .loads = True};
    }
    case Ist_StoreG: {
        const IRStoreG *g = s->Ist.StoreG.details;
        return (part){
            .address = g->addr, .guard = g->guard, .size = size_of(sb, g->data), .stores = True};
    }
    case Ist_Dirty: return part_of_helper(s->Ist.Dirty.details);
    case Ist_CAS: {
        const IRCAS *c = s->Ist.CAS.details;
        return (part){.address = c->addr,
                      .size = size_of(sb, c->dataLo) * (c->dataHi ? 2 : 1),
                      .loads = True,
                      .stores = True};
    }
    default: return none;
    }
}

static Bool is_number(const IRExpr *e) {
    return e->tag == Iex_Const && e->Iex.Const.con->tag == Ico_U64;
}

static const IRExpr *meaning_of(const looking *l, const IRExpr *e) {
    return e->tag == Iex_RdTmp ? l->meanings[e->Iex.RdTmp.tmp] : NULL;
}

/* What an address is above: it is followed through additions of numbers. */
static void find_root(const looking *l, part *p) {
    const IRExpr *e = p->address, *meaning;
    for (; (meaning = meaning_of(l, e));) {
        if (meaning->tag == Iex_RdTmp || is_number(meaning)) {
            e = meaning;
            continue;
        }
        Bool adds = meaning->tag == Iex_Binop && meaning->Iex.Binop.op == Iop_Add64,
             takes = meaning->tag == Iex_Binop && meaning->Iex.Binop.op == Iop_Sub64;
        if ((!adds && !takes) || !is_number(meaning->Iex.Binop.arg2)) break;
        Long number = (Long)meaning->Iex.Binop.arg2->Iex.Const.con->Ico.U64;
        p->offset += adds ? number : -number;
        e = meaning->Iex.Binop.arg1;
    }
    if (is_number(e))
        p->offset += (Long)e->Iex.Const.con->Ico.U64;
    else
        p->root = e;
}

static Bool has_root(const part *p, const part *q) {
    return p->root && q->root ? eqIRAtom(p->root, q->root) : p->root == q->root;
}

/* What the statements of an instruction do to memory. */
static void find_parts(looking *l, Int from, Int to) {
    l->parts_count = 0;
    for (Int i = from; i < to; i++) {
        part p = part_of(l->in, l->in->stmts[i]);
        if (!p.loads && !p.stores) continue;
        tl_assert(l->parts_count < MOST_PARTS);
        p.at = i;
        find_root(l, &p);
        l->parts[l->parts_count++] = p;
    }
}

/* -- operands -- */

static operand *new_operand(looking *l, const part *p) {
    tl_assert(l->operands_count < MOST_PARTS);
    operand *o = &l->operands[l->operands_count++];
    *o = (operand){*p, p->offset, 1, NULL};
    return o;
}

static void widen(operand *o, const part *p) {
    Long first = p->offset < o->first ? p->offset : o->first, end = o->first + (Long)o->of.size,
         end_of_part = p->offset + (Long)p->size;
    o->of.size = (UInt)((end_of_part > end ? end_of_part : end) - first);
    o->first = first;
    o->of.guard = o->of.guard && p->guard && eqIRAtom(o->of.guard, p->guard) ? o->of.guard : NULL;
    o->count++;
}

/* The loads at one place are an operand, and so are the stores. */
static void gather_side(looking *l, part p) {
    for (UInt i = 0; i < l->operands_count; i++) {
        operand *o = &l->operands[i];
        if (o->of.loads != p.loads || !has_root(&o->of, &p)) continue;
        widen(o, &p);
        return;
    }
    new_operand(l, &p);
}

static Bool has_place(const operand *o, const operand *p) {
    return has_root(&o->of, &p->of) && o->first == p->first && o->of.size == p->of.size &&
           !o->of.guard && !p->of.guard;
}

/* What is loaded and stored at one place is one access. */
static void join_sides(looking *l) {
    for (UInt i = 0; i < l->operands_count; i++)
        for (UInt k = 0; k < l->operands_count && l->operands[i].of.loads; k++) {
            operand *o = &l->operands[i], *stored = &l->operands[k];
            if (stored->of.loads || !stored->of.stores || !has_place(o, stored)) continue;
            o->of.stores = True;
            *stored = l->operands[--l->operands_count];
            return;
        }
}

static void gather_operands(looking *l, operands kind) {
    for (UInt i = 0; i < l->parts_count; i++) {
        part p = l->parts[i];
        Bool stores = p.stores;
        if (kind == OPERANDS_OF_512 && p.offset >= l->parts[0].offset + BYTES_OF_512) continue;
        if (p.loads && kind != OPERANDS_STORED) {
            p.stores = False;
            gather_side(l, p);
        }
        if (!stores) continue;
        p.loads = False;
        p.stores = True;
        gather_side(l, p);
    }
    join_sides(l);
}

static IRExpr *made(IRSB *out, IRType type, IRExpr *e) {
    IRTemp t = newIRTemp(out->tyenv, type);
    addStmtToIRSB(out, IRStmt_WrTmp(t, e));
    return IRExpr_RdTmp(t);
}

static IRExpr *shifted(IRSB *out, IRExpr *e, UInt bits) {
    return made(out, Ity_I64, IRExpr_Binop(Iop_Shl64, e, IRExpr_Const(IRConst_U8((UChar)bits))));
}

/* The guards of a masked operand's parts, a bit for each. It is one access whatever they are. */
static void make_mask(looking *l, operand *o) {
    IRExpr *mask = NULL;
    for (UInt i = 0; i < l->parts_count; i++) {
        IRExpr *bit = made(l->out, Ity_I64, IRExpr_Unop(Iop_1Uto64, l->parts[i].guard));
        if (i) bit = shifted(l->out, bit, i);
        mask = mask ? made(l->out, Ity_I64, IRExpr_Binop(Iop_Or64, mask, bit)) : bit;
    }
    o->mask = mask;
    o->of.guard = NULL;
}

/* An element of a gathering is read from the stack if its mask does not choose it. */
static void choose_element(const looking *l, operand *o) {
    const IRExpr *meaning = meaning_of(l, o->of.address);
    if (meaning && meaning->tag == Iex_ITE) o->of.guard = meaning->Iex.ITE.cond;
}

/* As Valgrind's other tools have it: each statement is an access, and a store behind a load at the
 * same place is a part of it. */
static void take_each(looking *l) {
    for (UInt i = 0; i < l->parts_count; i++) {
        operand *o = new_operand(l, &l->parts[i]);
        const part *p = &l->parts[i], *next = p + 1;
        if (i + 1 == l->parts_count || !p->loads || p->stores || p->guard || next->loads ||
            next->guard || next->size != p->size || !eqIRAtom(next->address, p->address))
            continue;
        o->of.stores = True;
        i++;
    }
}

/* -- prefetching -- */

#define PLACE(name) __builtin_offsetof(VexGuestAMD64State, guest_##name)

/* By their numbers in an instruction. */
static const UShort registers[16] = {
    PLACE(RAX), PLACE(RCX), PLACE(RDX), PLACE(RBX), PLACE(RSP), PLACE(RBP), PLACE(RSI), PLACE(RDI),
    PLACE(R8),  PLACE(R9),  PLACE(R10), PLACE(R11), PLACE(R12), PLACE(R13), PLACE(R14), PLACE(R15)};

static IRExpr *register_of(IRSB *out, Int place) {
    return made(out, Ity_I64, IRExpr_Get(place, Ity_I64));
}

static IRExpr *sum_of(IRSB *out, IRExpr *a, IRExpr *b) {
    return made(out, Ity_I64, IRExpr_Binop(Iop_Add64, a, b));
}

static IRExpr *address_of(IRSB *out, Addr pc, UInt size) {
    operand_address a = address_of_bytes((const UChar *)pc, size);
    IRExpr *sum = IRExpr_Const(IRConst_U64((ULong)a.displacement + (a.is_of_next ? pc + size : 0)));
    if (a.base != NO_REGISTER) sum = sum_of(out, register_of(out, registers[a.base]), sum);
    if (a.index != NO_REGISTER) {
        IRExpr *index = register_of(out, registers[a.index]);
        sum = sum_of(out, sum, shifted(out, index, a.scale));
    }
    if (a.is_short) {
        IRExpr *low = made(out, Ity_I32, IRExpr_Unop(Iop_64to32, sum));
        sum = made(out, Ity_I64, IRExpr_Unop(Iop_32Uto64, low));
    }
    if (a.segment == SEGMENT_FS) sum = sum_of(out, sum, register_of(out, PLACE(FS_CONST)));
    if (a.segment == SEGMENT_GS) sum = sum_of(out, sum, register_of(out, PLACE(GS_CONST)));
    return sum;
}

/* A load of one byte. */
static void mark_prefetch(looking *l, Addr pc, UInt size) {
    const access a = {.address = address_of(l->out, pc, size), .size = 1, .loads = True};
    put_mark(l->out, &a);
}

/* -- the block -- */

static void find_operands(looking *l, operands kind) {
    l->operands_count = 0;
    switch (kind) {
    case OPERANDS_NONE: return;
    case OPERANDS_EACH: take_each(l); return;
    case OPERANDS_GATHERED:
        take_each(l);
        for (UInt i = 0; i < l->operands_count; i++) choose_element(l, &l->operands[i]);
        return;
    default: gather_operands(l, kind); return;
    }
}

static void put_operand(looking *l, const operand *o) {
    Long lower = o->first - o->of.offset;
    access a = {.address = o->of.address, .guard = o->of.guard, .size = o->of.size};
    if (lower) a.address = sum_of(l->out, a.address, IRExpr_Const(IRConst_U64((ULong)lower)));
    a.loads = o->of.loads;
    a.stores = o->of.stores;
    a.mask = o->mask;
    a.width = o->of.size / o->count;
    put_mark(l->out, &a);
}

/* Marks the operands that stand at a statement: a masked one where its last part is, whose guard is
 * known there, others where their first part is. */
static void put_marks(looking *l, Int at, operands kind) {
    for (UInt i = 0; i < l->operands_count; i++) {
        operand *o = &l->operands[i];
        Bool is_masked = kind == OPERANDS_MASKED;
        if (at != (is_masked ? l->parts[l->parts_count - 1].at : o->of.at)) continue;
        if (is_masked) make_mask(l, o);
        put_operand(l, o);
    }
}

static void mark_instruction(looking *l, Int from, Int to, Bool is_by_instruction) {
    const IRStmt *begin = l->in->stmts[from];
    operands kind = is_by_instruction ? operands_of_bytes((const UChar *)begin->Ist.IMark.addr,
                                                          begin->Ist.IMark.len)
                                      : OPERANDS_EACH;
    find_parts(l, from, to);
    find_operands(l, kind);
    addStmtToIRSB(l->out, l->in->stmts[from]);
    if (kind == OPERANDS_PREFETCHED) mark_prefetch(l, begin->Ist.IMark.addr, begin->Ist.IMark.len);
    for (Int i = from + 1; i < to; i++) {
        put_marks(l, i, kind);
        addStmtToIRSB(l->out, l->in->stmts[i]);
    }
}

/* What each value of the block is, by its number. */
static const IRExpr **meanings_of(const IRSB *in) {
    static const IRExpr **meanings;
    static Int room;
    Int count = in->tyenv->types_used;
    if (count > room)
        meanings = VG_(realloc)("meanings", meanings, (SizeT)(room = 2 * count) * sizeof *meanings);
    VG_(memset)(meanings, 0, (SizeT)count * sizeof *meanings);
    for (Int i = 0; i < in->stmts_used; i++)
        if (in->stmts[i]->tag == Ist_WrTmp)
            meanings[in->stmts[i]->Ist.WrTmp.tmp] = in->stmts[i]->Ist.WrTmp.data;
    return meanings;
}

static IRSB *mark_accesses(const IRSB *in, Bool is_by_instruction) {
    static looking l;
    l.in = in;
    l.out = deepCopyIRSBExceptStmts(in);
    l.meanings = meanings_of(in);
    marks_begin();
    Int from = 0;
    while (from < in->stmts_used && in->stmts[from]->tag != Ist_IMark)
        addStmtToIRSB(l.out, in->stmts[from++]);
    while (from < in->stmts_used) {
        Int to = from + 1;
        while (to < in->stmts_used && in->stmts[to]->tag != Ist_IMark) to++;
        mark_instruction(&l, from, to, is_by_instruction);
        from = to;
    }
    return l.out;
}

/* The linker puts this in place of Libvex's own, which optimises a block (tools/valgrind/build). */
typedef IRExpr *special(const HChar *, IRExpr **, IRStmt **, Int);
typedef Bool precise(Int, Int, VexRegisterUpdates);
extern IRSB *__real_do_iropt_BB(IRSB *, special *, precise *, VexRegisterUpdates, Addr, VexArch);
extern IRSB *__wrap_do_iropt_BB(IRSB *, special *, precise *, VexRegisterUpdates, Addr, VexArch);

IRSB *__wrap_do_iropt_BB(IRSB *in, special *specialise, precise *is_precise,
                         VexRegisterUpdates updates, Addr first, VexArch arch) {
    if (words.has_further)
        return mark_accesses(__real_do_iropt_BB(in, specialise, is_precise, updates, first, arch),
                             False);
    return __real_do_iropt_BB(mark_accesses(in, True), specialise, is_precise, updates, first,
                              arch);
}
