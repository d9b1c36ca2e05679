/* A mark is a store at an address that no program has. It has to be a statement that Valgrind keeps
 * where it is, with its address and its guard, and that hinders nothing else. */
#include "marks.h"

#include "pub_tool_mallocfree.h"

#define FIRST_MARK 0x4B4C000000000000UL /* its upper bits are not all one bit */
#define MASK_MARK 0x100000000UL         /* beside the number of an access: its mask */

/* The accesses of the last block, without their expressions. */
static access *marks;
static UInt count, room;
static IRExpr *last_mask;

void marks_begin(void) { count = 0; }

static IRExpr *mark_address(ULong number) { return IRExpr_Const(IRConst_U64(FIRST_MARK + number)); }

void put_mark(IRSB *out, const access *a) {
    if (count == room) {
        room = 2 * room + 64;
        marks = VG_(realloc)("marks", marks, room * sizeof *marks);
    }
    IRExpr *where = mark_address(count);
    if (a->mask)
        addStmtToIRSB(out, IRStmt_Store(Iend_LE, mark_address(MASK_MARK + count), a->mask));
    if (a->guard)
        addStmtToIRSB(out, IRStmt_StoreG(Iend_LE, where, a->address, a->guard));
    else
        addStmtToIRSB(out, IRStmt_Store(Iend_LE, where, a->address));
    marks[count++] = *a;
}

static Bool is_mark(const IRExpr *address, ULong *number) {
    if (address->tag != Iex_Const || address->Iex.Const.con->tag != Ico_U64) return False;
    *number = address->Iex.Const.con->Ico.U64 - FIRST_MARK;
    return (*number & ~MASK_MARK) < count;
}

Bool marks_access(const IRStmt *s, access *a) {
    ULong number;
    Bool is_guarded = s->tag == Ist_StoreG;
    if (!is_guarded && s->tag != Ist_Store) return False;
    const IRStoreG *guarded = is_guarded ? s->Ist.StoreG.details : NULL;
    if (!is_mark(guarded ? guarded->addr : s->Ist.Store.addr, &number)) return False;
    if (number & MASK_MARK) {
        *a = (access){0};
        last_mask = s->Ist.Store.data;
        return True;
    }
    *a = marks[number];
    a->address = guarded ? guarded->data : s->Ist.Store.data;
    a->guard = guarded ? guarded->guard : NULL;
    a->mask = a->mask ? last_mask : NULL;
    return True;
}
