#include "thresholds.h"

#include "pub_tool_machine.h"
#include "pub_tool_options.h"
#include "pub_tool_transtab.h"

#include "tape.h"
#include "words.h"

#define MOST_INSTRUCTIONS 60 /* of a block, as in Libvex */
/* at armed kinds behind instructions of close code, beside those behind the last one */
#define MOST_LOOKS 40

UInt armed_count;
UChar armed_kinds[KL_KINDS];
Bool is_armed[KL_KINDS], is_machine_armed, has_turns, is_close;
Addr stub;

/* Libvex's own copy of what VG_(clo_vex_control) was when it began. */
extern VexControl vex_control;
extern VexRegisterUpdates VG_(clo_px_file_backed);

/* Code that can be left behind an instruction has all registers in their places there. */
static void place_registers(Bool places_all) {
    static VexRegisterUpdates usual, usual_file_backed;
    static Bool is_known;
    if (!is_known) {
        usual = VG_(clo_vex_control).iropt_register_updates_default;
        usual_file_backed = VG_(clo_px_file_backed);
    }
    is_known = True;
    VexRegisterUpdates now = places_all ? VexRegUpdAllregsAtEachInsn : usual;
    vex_control.iropt_register_updates_default =
        VG_(clo_vex_control).iropt_register_updates_default = now;
    VG_(clo_px_file_backed) = places_all ? now : usual_file_backed;
}

static Bool has_threshold(UInt kind) {
    for (ThreadId tid = 1; tid < VG_N_THREADS; tid++)
        if (core_of(tid) && core_of(tid)->period[kind]) return True;
    return False;
}

static Bool is_of_machine(UInt kind) {
    Bool is_miss = (kind >= KL_L1D_LOAD_MISSES && kind <= KL_ITLB_MISSES) ||
                   kind == KL_SPLIT_LOADS || kind == KL_SPLIT_STORES,
         is_mispredicted = kind == KL_MISPREDICTED_TAKEN || kind == KL_MISPREDICTED_NOT_TAKEN;
    return words.has_model &&
           (is_miss || is_mispredicted || kind == KL_CYCLES || kind == KL_STALLS);
}

/* Code is translated anew, and looks at the kinds of which a thread has a threshold now. One of
 * which none has any more is looked at until this is done again. */
static void look_at_armed_kinds(void) {
    armed_count = 0;
    is_machine_armed = False;
    for (UInt kind = 0; kind < KL_KINDS; kind++) {
        is_armed[kind] = has_threshold(kind);
        if (!is_armed[kind]) continue;
        armed_kinds[armed_count++] = (UChar)kind;
        is_machine_armed = is_machine_armed || is_of_machine(kind);
    }
    place_registers(is_machine_armed);
    VG_(discard_translations_safely)(0, ~(SizeT)0, "thresholds");
}

Bool threshold_arms(core *c, UWord kind, UWord period) {
    if (kind >= KL_KINDS) return False;
    c->period[kind] = (Long)period;
    if (!is_armed[kind] && period) look_at_armed_kinds();
    *(c->is_stopped ? &c->left_at_stop[kind] : &c->left[kind]) = period ? (Long)period : NEVER;
    return True;
}

/* -- close code -- */

/* The scheduler runs it as code without redirection, which it keeps apart, and translates if it is
 * not there. Libvex has room for so much of a block. */
void close_code_is_next(void) {
    is_close = True;
    vex_control.guest_max_insns = 1 + MOST_LOOKS / (Int)armed_count;
    place_registers(True);
}

void close_code_is_made(void) {
    if (!is_close) return;
    is_close = False;
    vex_control.guest_max_insns = MOST_INSTRUCTIONS;
    place_registers(is_machine_armed);
}

/* -- a block is left -- */

/* What happened before is added to the counts. */
static void catch_up(core *c, const leaving *p) {
    for (UInt i = 0; i < p->count; i++) core_takes(c, p->all[i].kind, p->all[i].amount);
    if (p->line.line < p->line.count) tape_sees_open_line(&p->line);
    if (p->pc) c->last = p->pc;
    c->leaves = core_has_passed(c) ? -1 : 0;
}

void block_is_left(const leaving *p) { catch_up(current, p); }

static void goes_to_stub(core *c, UInt kind, Addr pc, Addr next) {
    c->passed = (kl_passed){kind, pc, next};
    c->leaves = core_has_passed(c) ? -1 : 0;
    c->is_in_library = True;
    set_current(running);
}

/* The first kind whose threshold is passed: of several at one place the others are passed when the
 * thread is back there. */
static UInt kind_passed(const core *c) {
    UInt i = 0;
    while (i + 1 < armed_count && c->left[armed_kinds[i]] > 0) i++;
    return armed_kinds[i];
}

void threshold_passes(const leaving *p) {
    core *c = current;
    catch_up(c, p);
    UInt kind = kind_passed(c);
    Long period = c->period[kind];
    do c->left[kind] += period;
    while (period && c->left[kind] <= 0);
    goes_to_stub(c, kind, c->last, p->next);
}

/* -- turns -- */

/* Code that is translated from now on looks whether a turn ends. */
void turn_begins(core *c, UWord instructions) {
    if (instructions && !has_turns) {
        has_turns = True;
        VG_(discard_translations_safely)(0, ~(SizeT)0, "turns");
    }
    c->turn_at = instructions ? (Long)(c->counts[KL_INSTRUCTIONS] + instructions) : NEVER;
}

void turn_ends(Addr next) {
    core *c = current;
    c->turn_at = NEVER;
    goes_to_stub(c, KL_KINDS, armed_count && c->last ? c->last : next, next);
}
