#include "model.h"

#include "profile.h"
#include "slots.h"
#include "tape.h"
#include "thresholds.h"
#include "words.h"

enum {
    OWN_MISS,
    L2_HIT,
    L2_MISS,
    L3_HIT,
    L3_MISS,
    PAGE_MISS,
    CYCLES,
    STALLS,
    OWN_HIT,
    SPLIT,
    STORE_SPLIT,
    MADE_HERE
};
enum { MISPREDICTED_NOT_TAKEN, MISPREDICTED_TAKEN };

static const UChar kinds[4][MADE_HERE] = {
    [BY_LOAD] = {KL_L1D_LOAD_MISSES, KL_L2_LOAD_HITS, KL_L2_LOAD_MISSES, KL_L3_LOAD_HITS,
                 KL_L3_LOAD_MISSES, KL_DTLB_LOAD_MISSES, KL_CYCLES, KL_STALLS, LOAD_HITS,
                 KL_SPLIT_LOADS, KL_SPLIT_STORES},
    [BY_STORE] = {KL_L1D_STORE_MISSES, KL_L2_STORE_HITS, KL_L2_STORE_MISSES, KL_L3_STORE_HITS,
                  KL_L3_STORE_MISSES, KL_DTLB_STORE_MISSES, KL_CYCLES,
                  KL_STALLS, [SPLIT] = KL_SPLIT_STORES},
    [BY_FETCH] = {KL_L1I_MISSES, KL_L2_FETCH_HITS, KL_L2_FETCH_MISSES, KL_L3_FETCH_HITS,
                  KL_L3_FETCH_MISSES, KL_ITLB_MISSES, KL_CYCLES, KL_STALLS},
    [BY_BRANCH] = {[MISPREDICTED_NOT_TAKEN] = KL_MISPREDICTED_NOT_TAKEN,
                   [MISPREDICTED_TAKEN] = KL_MISPREDICTED_TAKEN,
                   [CYCLES] = KL_CYCLES,
                   [STALLS] = KL_STALLS},
};

static void put_on_tape(core *c, site *s, UInt what, UInt amount) {
    if (!s->slots[what]) s->slots[what] = slot_of(kinds[s->side][what], s->pc);
    Int *room = c->rooms + s->slots[what], left = *room - (Int)amount;
    if (left >= 0) *room = left;
    else tape_notes(c, s->slots[what], amount, s->instruction, s->side == BY_FETCH);
}

static void happens(core *c, site *s, UInt what) {
    UInt kind = kinds[s->side][what];
    c->counts[kind]++;
    profile_adds(c, s->instruction, kind, 1);
    if (is_machine_armed && --c->left[kind] <= 0) c->leaves = -1;
    if (c->tape && words.codes[kind].count) put_on_tape(c, s, what, 1);
}

static void stall(core *c, site *s, UInt cost) {
    ULong cycles = words.costs[cost];
    c->counts[KL_STALLS] += cycles;
    profile_adds(c, s->instruction, KL_STALLS, cycles);
    if (is_machine_armed) {
        c->left[KL_STALLS] -= (Long)cycles;
        c->left[KL_CYCLES] -= (Long)cycles;
        if (c->left[KL_STALLS] <= 0 || c->left[KL_CYCLES] <= (Long)c->at->count) c->leaves = -1;
    }
    if (!c->tape) return;
    put_on_tape(c, s, CYCLES, (UInt)cycles);
    put_on_tape(c, s, STALLS, (UInt)cycles);
}

/* An access that missed the first level goes on to the others. */
static void ask_levels(core *c, site *s, Addr address) {
    UInt served_by = SERVED_BY_MEMORY;
    Bool misses = !c->l2.tags || cache_misses(&c->l2, address, s->size);
    if (c->l2.tags) happens(c, s, misses ? L2_MISS : L2_HIT);
    if (misses) {
        misses = !shared_l3.tags || cache_misses(&shared_l3, address, s->size);
        if (shared_l3.tags) happens(c, s, misses ? L3_MISS : L3_HIT);
        if (!misses) served_by = SERVED_BY_L3;
    } else served_by = SERVED_BY_L2;
    stall(c, s, served_by);
}

/* Nobody's machine only knows what was used last, so that generated code seldom asks. */
static void use(const cache *part, Addr address) {
    if (part->tags) *set_of(part, line_of_address(part, address)) = line_of_address(part, address);
}

/* An access that needs the next line too. Generated code comes here with each that is not
 * aligned. */
static void splits(core *c, site *s, Addr address, const cache *lines) {
    if (!lines->tags || address >> lines->line_bits == (address + s->size - 1) >> lines->line_bits)
        return;
    happens(c, s, SPLIT);
    if (s->stores_too) happens(c, s, STORE_SPLIT);
}

static void meet(core *c, site *s, Addr address, cache *pages, cache *lines) {
    if (c->is_uncounted) {
        use(pages, address);
        use(lines, address);
        return;
    }
    if (pages->tags && pages_miss(pages, lines, address, s->size)) {
        happens(c, s, PAGE_MISS);
        stall(c, s, PAGE_MISSED);
    }
    if (lines->tags && lines_miss(lines, pages, address, s->size)) {
        happens(c, s, OWN_MISS);
        ask_levels(c, s, address);
    } else if (s->notes_hits && c->tape) put_on_tape(c, s, OWN_HIT, 1);
}

static Bool has_no_room(const core *c, UInt slot) { return c->rooms[slot] < 0; }

void model_sees_access(site *s, Addr address) {
    core *c = current;
    for (UInt i = 0; i < s->items; i++)
        if (has_no_room(c, s->access[i].slot)) tape_sees_item(s->access + i);
    if (!words.has_model) return;
    meet(c, s, address, &c->dtlb, &c->l1d);
    if (!c->is_uncounted) splits(c, s, address, &c->l1d);
}

void model_sees_masked(site *s, Addr address, ULong mask, ULong width) {
    if (!mask) return;
    UInt first = (UInt)__builtin_ctzll(mask), last = 63 - (UInt)__builtin_clzll(mask);
    s->size = (UShort)((last - first + 1) * width);
    meet(current, s, address + first * width, &current->dtlb, &current->l1d);
    if (!current->is_uncounted) splits(current, s, address + first * width, &current->l1d);
}

void model_sees_fetch(site *s) { meet(current, s, s->pc, &current->itlb, &current->l1i); }

void model_sees_branch(site *s, ULong taken, ULong errs) {
    core *c = current;
    if (s->items) {
        if (has_no_room(c, s->line.slot) || has_no_room(c, s->line.slot + 1))
            tape_sees_line(&s->line);
        if (has_no_room(c, s->branch[taken].slot)) tape_sees_item(s->branch + taken);
    }
    if (!errs || c->is_uncounted) return;
    happens(c, s, taken ? MISPREDICTED_TAKEN : MISPREDICTED_NOT_TAKEN);
    stall(c, s, BRANCH_ERRED);
}
