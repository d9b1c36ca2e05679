#include "frames.h"

#include "pub_tool_aspacemgr.h"
#include "pub_tool_guest.h"
#include "pub_tool_libcbase.h"
#include "pub_tool_machine.h"
#include "pub_tool_mallocfree.h"
#include "pub_tool_vki.h"

#include "profile.h"
#include "words.h"

#define FIRST_ROOM 64
#define PAGE 4096
#define KNOWN 4096 /* targets of calls with symbols, the last of each checksum */

typedef struct {
    Addr sp;
    function *of;
    edge *by;
    Bool is_again; /* within a call of the same function */
} frame;

struct frames {
    frame *all;
    UInt used, room;
    ULong (*at)[ALL_KINDS]; /* the counts where each call began, for a profile */
    /* The counts at the first call, and those in calls before. */
    ULong entered[ALL_KINDS], inside[ALL_KINDS];
};

static void set_top(core *c) {
    const frames *f = c->frames;
    c->top = f->used ? f->all[f->used - 1].sp : NO_CALL;
    c->profiled = f->used || !functions_are_named();
}

static void make_room(frames *f) {
    f->room = f->room ? 2 * f->room : FIRST_ROOM;
    f->all = VG_(realloc)("frames", f->all, f->room * sizeof *f->all);
    if (words.has_profile) f->at = VG_(realloc)("frames", f->at, f->room * sizeof *f->at);
}

static Bool is_in_call(const frames *f, const function *of) {
    for (UInt i = f->used; i > 0; i--)
        if (f->all[i - 1].of == of) return True;
    return False;
}

/* Where the call was made. A function that is jumped to is called by the one that jumps. */
static Addr site_of(const frames *f, Addr sp) {
    static Addr valid_page;
    const frame *top = f->used ? f->all + f->used - 1 : NULL;
    if (top && top->sp == sp) return top->of->entry;
    if (valid_page != sp / PAGE) {
        if (!VG_(am_is_valid_for_client)(sp, sizeof(Addr), VKI_PROT_READ)) return 0;
        valid_page = sp / PAGE;
    }
    return *(const Addr *)sp - 1;
}

static void begin_profile(core *c, frame *made, UInt number) {
    frames *f = c->frames;
    Addr site = site_of(f, made->sp);
    made->of->calls++;
    made->is_again = is_in_call(f, made->of);
    if (number && site) {
        made->by = profile_edge(site, made->of);
        made->by->calls++;
    }
    VG_(memcpy)(f->at[number], c->counts, sizeof c->counts);
}

static void push(core *c, function *of, Addr sp) {
    frames *f = c->frames;
    if (!f) f = c->frames = VG_(calloc)("frames", 1, sizeof *f);
    if (f->used == f->room) make_room(f);
    frame made = {sp, of, NULL, False};
    if (words.has_profile) begin_profile(c, &made, f->used);
    if (!f->used) core_sums(c, f->entered);
    f->all[f->used++] = made;
    set_top(c);
}

/* Adds what a call did so far, or takes that away again. What is in a call of the same function
 * counts there alone. */
static void settle(const core *c, UInt number, Bool adds) {
    const frame *of = c->frames->all + number;
    const ULong *at = c->frames->at[number];
    for (UInt i = 0; i < ALL_KINDS && !of->is_again; i++) {
        ULong more = adds ? c->counts[i] - at[i] : at[i] - c->counts[i];
        if (of->by) of->by->inclusive[i] += more;
        of->of->inclusive[i] += more;
    }
}

void frames_settle(const core *c, Bool adds) {
    for (UInt i = 0; words.has_profile && c->frames && i < c->frames->used; i++) settle(c, i, adds);
}

void frames_begin_anew(core *c) {
    for (UInt i = 0; words.has_profile && c->frames && i < c->frames->used; i++)
        VG_(memcpy)(c->frames->at[i], c->counts, sizeof c->counts);
}

static void pop(core *c) {
    frames *f = c->frames;
    ULong now[ALL_KINDS];
    if (words.has_profile) settle(c, f->used - 1, True);
    f->used--;
    set_top(c);
    if (f->used) return;
    core_sums(c, now);
    for (UInt i = 0; i < ALL_KINDS; i++) f->inside[i] += now[i] - f->entered[i];
}

/* A stack pointer above a call does not leave it if it is that of another stack: of a handler of
 * signals, or of a coroutine. */
static Bool is_on_stack(Addr sp, Addr top) {
    Addr other = VG_(thread_get_altstack_min)(running);
    SizeT size = VG_(thread_get_altstack_size)(running);
    Bool is_on_other = sp - other < size, was_on_other = top - other < size;
    return is_on_other == was_on_other && VG_(am_find_nsegment)(sp) == VG_(am_find_nsegment)(top);
}

static void leave(core *c, Addr sp) {
    while (c->top < sp && is_on_stack(sp, c->top)) pop(c);
}

void frames_leave(Addr sp) { leave(current, sp); }

/* A function that jumps to its own beginning is not called again. If functions are named, others
 * are followed in calls of these alone. */
void frames_enter(function *of, Addr sp) {
    core *c = current;
    if (c->is_uncounted) return;
    leave(c, sp);
    if (c->top == sp && c->frames->all[c->frames->used - 1].of == of) return;
    if (functions_are_named() && !of->is_named && c->top == NO_CALL) return;
    if (of->is_named) functions_count_call(of);
    push(c, of, sp);
}

void frames_end(core *c) {
    while (c->top != NO_CALL) pop(c);
}

void frames_counts(const core *c, ULong counts[ALL_KINDS]) {
    core_sums(c, counts);
    if (!functions_are_named()) return;
    const frames *f = c->frames;
    for (UInt i = 0; i < ALL_KINDS; i++) {
        ULong open = f && f->used ? counts[i] - f->entered[i] : 0;
        counts[i] = open + (f ? f->inside[i] : 0);
    }
}

/* -- code -- */

static IRExpr *stack_pointer(code *c) {
    Int offset = __builtin_offsetof(VexGuestAMD64State, guest_RSP);
    return code_make(c, Ity_I64, IRExpr_Get(offset, Ity_I64));
}

/* Where a function goes on behind other code of the same block, nobody called it. */
void code_enters_function(code *c) {
    if (c->pc != c->first) return;
    function *f = function_at(c->pc);
    if (!f) return;
    IRExpr **words = mkIRExprVec_2(code_word((Addr)f), stack_pointer(c));
    code_call(c, NULL, "frames_enter", frames_enter, words);
}

/* Called by generated code: to where the last call of its place went, if that has a symbol. */
static void sees_call(Addr target, Addr sp, Addr *last) {
    static Addr known[KNOWN];
    Addr *place = known + (target * 0x9e3779b97f4a7c15UL >> 40) % KNOWN;
    if (*place == target) {
        *last = target;
        return;
    }
    function *f = function_called(target);
    if (f) frames_enter(f, sp);
    else *place = *last = target;
}

/* Code without a symbol begins a function where it is called. */
static void code_calls(code *c, IRExpr *next) {
    if (next->tag == Iex_Const) {
        function *f = function_called((Addr)next->Iex.Const.con->Ico.U64);
        if (!f) return;
        IRExpr **words_of_call = mkIRExprVec_2(code_word((Addr)f), stack_pointer(c));
        code_call(c, NULL, "frames_enter", frames_enter, words_of_call);
        return;
    }
    Addr *last = block_memory(c->of, sizeof *last);
    *last = 0;
    IRExpr *where = code_word((Addr)last), *sp = stack_pointer(c);
    IRExpr *differs = code_is(c, Iop_CmpNE64, code_load(c, where), next);
    code_call(c, differs, "sees_call", sees_call, mkIRExprVec_3(next, sp, where));
}

void code_leaves_functions(code *c, const IRSB *in) {
    Bool is_jump = in->jumpkind == Ijk_Boring && in->next->tag != Iex_Const;
    if (words.has_profile && in->jumpkind == Ijk_Call) code_calls(c, in->next);
    if (!functions_are_followed() || !c->base || (in->jumpkind != Ijk_Ret && !is_jump)) return;
    IRExpr *sp = stack_pointer(c);
    IRExpr *is_above = code_is(c, Iop_CmpLT64U, code_load_at(c, OFFSET(top)), sp);
    code_call(c, is_above, "frames_leave", frames_leave, mkIRExprVec_1(sp));
}
