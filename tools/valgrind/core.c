#include "core.h"

#include "pub_tool_aspacemgr.h"
#include "pub_tool_libcbase.h"
#include "pub_tool_mallocfree.h"

#include "output.h"
#include "profile.h"
#include "slots.h"
#include "tape.h"
#include "words.h"

#define LINE 64 /* of the machine that runs the tool */
#define ROUNDED(size) (((size) + LINE - 1) & ~(SizeT)(LINE - 1))

core_layout layout;
core *current;
ThreadId running;
cache shared_l3;

static core *uncounted;
static core **cores; /* by thread */
static Bool has_begun, is_over;
static ULong ended[ALL_KINDS]; /* the counts of threads that are no more */

static SizeT core_size(void) {
    SizeT size = ROUNDED(sizeof(core)) + (1UL << words.predictor_bits);
    const shape *const shapes[] = {&words.l1d, &words.l1i, &words.l2, &words.dtlb, &words.itlb};
    for (UInt i = 0; i < sizeof shapes / sizeof *shapes; i++)
        size += ROUNDED(cache_room(shapes[i]));
    return size;
}

/* Makes a cache of a core, and says where its lines stand. */
static UInt place_cache(core *c, cache *part, const shape *s, SizeT *used) {
    cache_begins(part, s, (UChar *)c + *used);
    *used += ROUNDED(cache_room(s));
    return part->tags ? (UInt)((UChar *)part->tags - (UChar *)c) : 0;
}

static void make_machine(core *c) {
    SizeT used = ROUNDED(sizeof(core));
    layout.l1d = place_cache(c, &c->l1d, &words.l1d, &used);
    layout.dtlb = place_cache(c, &c->dtlb, &words.dtlb, &used);
    layout.l1i = place_cache(c, &c->l1i, &words.l1i, &used);
    layout.itlb = place_cache(c, &c->itlb, &words.itlb, &used);
    place_cache(c, &c->l2, &words.l2, &used);
    layout.counters = (UInt)used;
    predictor_begins(&c->branches, (unsigned)words.predictor_bits, (UChar *)c + used);
}

/* Memory that begins with a page, all 0. */
static void *pages(SizeT size) {
    void *memory = VG_(am_shadow_alloc)(size);
    if (!memory) fail("out of memory");
    return memory;
}

static core *new_core(void) {
    core *c = pages(core_size());
    for (UInt i = 0; i < KL_KINDS; i++) c->left[i] = NEVER;
    c->check_at = c->turn_at = NEVER;
    c->top = NO_CALL;
    c->profiled = !functions_are_named();
    make_machine(c);
    return c;
}

void cores_begin(void) {
    cores = VG_(calloc)("cores", VG_N_THREADS, sizeof *cores);
    uncounted = new_core();
    uncounted->is_uncounted = True;
    uncounted->rooms = idle_rooms();
    current = uncounted;
    has_begun = !words.from && !words.from_entry;
    cache_begins(&shared_l3, &words.l3, pages(cache_room(&words.l3) + LINE));
}

core *core_of(ThreadId tid) { return cores[tid] && cores[tid]->is_used ? cores[tid] : NULL; }

void core_thread_begins(ThreadId tid) {
    if (cores[tid]) VG_(am_munmap_valgrind)((Addr)cores[tid], core_size());
    static UInt begun;
    core *c = cores[tid] = new_core();
    c->number = begun++;
    c->is_used = True;
    c->rooms = idle_rooms();
    if (words.has_tape) c->tape = new_tape(c);
    if (words.is_stopped) core_stops(c);
}

void kinds_add_up(ULong all[ALL_KINDS]) {
    all[KL_TAKEN] += all[LEFT_TAKEN] - all[STAYED_NOT_TAKEN] + all[STAYED_TAKEN];
    all[KL_NOT_TAKEN] += all[LEFT_NOT_TAKEN] - all[STAYED_TAKEN] + all[STAYED_NOT_TAKEN];
    all[KL_TAKEN] += all[RIGHT_TAKEN] + all[WRONG_TAKEN];
    all[KL_NOT_TAKEN] += all[RIGHT_NOT_TAKEN] + all[WRONG_NOT_TAKEN];
    all[KL_MISPREDICTED_TAKEN] += all[WRONG_TAKEN];
    all[KL_MISPREDICTED_NOT_TAKEN] += all[WRONG_NOT_TAKEN];
    all[KL_STALLS] += words.costs[BRANCH_ERRED] * (all[WRONG_TAKEN] + all[WRONG_NOT_TAKEN]);
    all[KL_CYCLES] += all[KL_INSTRUCTIONS] + all[KL_STALLS];
    all[LOAD_HITS] = all[KL_LOADS] - all[KL_L1D_LOAD_MISSES];
}

void core_sums(const core *c, ULong all[ALL_KINDS]) {
    for (UInt i = 0; i < ALL_KINDS; i++) all[i] = c->counts[i];
    kinds_add_up(all);
}

void core_thread_ends(ThreadId tid) {
    ULong all[ALL_KINDS];
    core *c = cores[tid];
    if (!c || !c->is_used) return;
    if (c->tape) tape_ends(c);
    core_sums(c, all);
    for (UInt i = 0; i < ALL_KINDS; i++) ended[i] += all[i];
    c->is_used = False;
    set_current(running);
}

void set_current(ThreadId tid) {
    core *c = core_of(tid);
    Bool counts = has_begun && c && !c->is_in_library && (words.threads == ANY_THREAD || tid == 1);
    current = counts ? c : uncounted;
}

Bool counting_has_begun(void) { return has_begun; }

void counting_begins(void) {
    has_begun = !is_over;
    profile_forgets();
    set_current(running);
}

void counting_ends(void) {
    is_over = True;
    has_begun = False;
    set_current(running);
}

Bool core_has_passed(const core *c) {
    for (UInt i = 0; i < KL_KINDS; i++)
        if (c->left[i] <= 0) return True;
    return False;
}

void core_takes(core *c, UInt kind, Long amount) {
    c->counts[kind] += (ULong)amount;
    if (kind < KL_KINDS) c->left[kind] -= amount;
    if (kind == KL_INSTRUCTIONS) c->left[KL_CYCLES] -= amount;
}

void core_starts(core *c) {
    ULong now[ALL_KINDS];
    if (!c->is_stopped) return;
    core_sums(c, now);
    for (UInt i = 0; i < ALL_KINDS; i++) c->dropped[i] += now[i] - c->at_stop[i];
    for (UInt i = 0; i < KL_KINDS; i++) c->left[i] = c->period[i] ? c->left_at_stop[i] : NEVER;
    c->leaves = core_has_passed(c) ? -1 : 0;
    c->is_stopped = False;
    if (c->tape) tape_starts(c);
}

void core_stops(core *c) {
    if (c->is_stopped) return;
    core_sums(c, c->at_stop);
    for (UInt i = 0; i < KL_KINDS; i++) {
        c->left_at_stop[i] = c->left[i];
        c->left[i] = NEVER;
    }
    c->turn_at = NEVER;
    c->is_stopped = True;
    if (c->tape) tape_stops(c);
}

void core_counts(const core *c, ULong counts[ALL_KINDS]) {
    if (c->is_stopped) VG_(memcpy)(counts, c->at_stop, sizeof c->at_stop);
    else core_sums(c, counts);
    for (UInt i = 0; i < ALL_KINDS; i++) counts[i] -= c->dropped[i];
}

void all_counts(ULong all[ALL_KINDS]) {
    VG_(memcpy)(all, ended, sizeof ended);
    for (ThreadId tid = 1; tid < VG_N_THREADS; tid++) {
        ULong of_thread[ALL_KINDS];
        if (!core_of(tid)) continue;
        core_sums(cores[tid], of_thread);
        for (UInt i = 0; i < ALL_KINDS; i++) all[i] += of_thread[i];
    }
}

ULong cycles_of(const core *c) {
    ULong all[ALL_KINDS];
    core_sums(c, all);
    return all[KL_CYCLES];
}
