/* The code that asks the modelled machine. Where the line and the page of an access are those that
 * their sets used last, nothing changes and nothing is called. What is on the tape beside it shares
 * that call. */
#include "code.h"

#include "pub_tool_libcbase.h"

#include "model.h"
#include "profile.h"
#include "words.h"

/* Without a tape it ends before what is on the tape. */
static site *new_site(code *c, UInt size, UInt side) {
    SizeT length = words.has_tape ? sizeof(site) : __builtin_offsetof(site, slots);
    site *s = block_memory(c->of, length);
    VG_(memset)(s, 0, length);
    s->pc = c->pc;
    s->size = (UShort)size;
    s->instruction = (UShort)c->number;
    s->side = (UShort)side;
    return s;
}

/* What code looks at, to tell whether the machine has to be asked: lines, which are known only if
 * their pages are, or pages alone. NULL if it can't tell. */
static const cache *looked_at(const cache *lines, const cache *pages) {
    if (!lines->tags) return pages;
    return !pages->tags || pages->line_bits >= lines->line_bits ? lines : NULL;
}

static Addr first_number(const code *c, const cache *part) { return c->pc >> part->line_bits; }
static Addr last_number(const code *c, const cache *part) {
    return (c->pc + c->size - 1) >> part->line_bits;
}

/* Not 0 if a line of the instruction is not known. That of the last fetch is. */
static IRExpr *fetch_differs(code *c, const cache *part, UInt tags, Addr known) {
    IRExpr *differs = NULL;
    for (Addr number = first_number(c, part); number <= last_number(c, part); number++) {
        if (number == known) continue;
        ULong set = number & part->last_set, line = number << part->line_bits;
        IRExpr *first = code_load_at(c, tags + set * part->ways * sizeof *part->tags);
        differs = code_or(c, differs, code_two(c, Iop_Xor64, first, code_word(line)));
    }
    return differs;
}

static Bool is_fetched(const code *c, const cache *part, Addr known) {
    return !part->tags || (first_number(c, part) == known && last_number(c, part) == known);
}

void code_fetches(code *c) {
    const cache *lines = &current->l1i, *pages = &current->itlb, *part = looked_at(lines, pages);
    Bool looks_at_lines = part == lines;
    UInt tags = looks_at_lines ? layout.l1i : layout.itlb;
    Addr known = looks_at_lines ? c->fetched_line : c->fetched_page;
    if (is_fetched(c, lines, c->fetched_line) && is_fetched(c, pages, c->fetched_page)) return;
    IRExpr *differs = part ? fetch_differs(c, part, tags, known) : NULL;
    IRExpr *guard = differs ? code_is(c, Iop_CmpNE64, differs, code_word(0)) : NULL;
    IRExpr **arguments = mkIRExprVec_1(code_word((Addr)new_site(c, c->size, BY_FETCH)));
    code_call(c, guard, "model_sees_fetch", model_sees_fetch, arguments);
    code_asks_machine(c);
    c->fetched_line = last_number(c, lines);
    c->fetched_page = last_number(c, pages);
}

/* The set of an address, in bytes from the first one. */
static IRExpr *set_at(code *c, const cache *part, IRExpr *address) {
    ULong bytes = sizeof *part->tags * part->ways, last = part->last_set;
    if (bytes == 1UL << part->line_bits)
        return code_two(c, Iop_And64, address, code_word(last << part->line_bits));
    IRExpr *number = code_shifted(c, Iop_Shr64, address, part->line_bits);
    number = code_two(c, Iop_And64, number, code_word(last));
    return code_two(c, Iop_Mul64, number, code_word(bytes));
}

/* Not 0 if an access is not in a line that is known, or not aligned to its size, so that it might
 * be in two. */
static IRExpr *access_differs(code *c, const cache *part, UInt tags, IRExpr *address, UInt size) {
    IRExpr *set = code_two(c, Iop_Add64, set_at(c, part, address), c->base);
    IRExpr *first = code_load(c, code_two(c, Iop_Add64, set, code_word(tags)));
    ULong bits = (~0UL << part->line_bits) | (size - 1);
    return code_two(c, Iop_And64, code_two(c, Iop_Xor64, address, first), code_word(bits));
}

/* Loads that find their line are on the tape, if its lines have a code for them. */
static Bool notes_hits(const access *a) {
    return a->loads && words.has_tape && words.codes[LOAD_HITS].count;
}

/* Not 0 if the machine has to be asked; NULL if it always has. */
static IRExpr *machine_differs(code *c, const access *a) {
    const cache *lines = &current->l1d, *part = looked_at(lines, &current->dtlb);
    Bool is_power = a->size && !(a->size & (a->size - 1));
    Bool is_small = part && is_power && a->size <= 1UL << part->line_bits;
    if (!is_small || a->guard || notes_hits(a)) return NULL;
    return access_differs(c, part, part == lines ? layout.l1d : layout.dtlb, a->address, a->size);
}

/* An access of which a mask chooses the elements. */
static void asks_masked(code *c, const access *a) {
    const access each = {.size = a->width, .loads = a->loads, .stores = a->stores};
    if (!words.has_model || (!current->l1d.tags && !current->dtlb.tags && !notes_hits(&each)))
        return;
    site *s = new_site(c, a->width, a->loads ? BY_LOAD : BY_STORE);
    s->notes_hits = notes_hits(&each);
    code_call(c, NULL, "model_sees_masked", model_sees_masked,
              mkIRExprVec_4(code_word((Addr)s), a->address, a->mask, code_word(a->width)));
    code_asks_machine(c);
}

/* An access on the tape, with the machine behind it. If it is guarded each is called by itself. */
void code_accesses(code *c, const access *a) {
    if (a->mask) {
        code_notes(c, a->loads ? KL_LOADS : KL_STORES, c->pc, 1, IN_ACCESS, NULL);
        asks_masked(c, a);
        return;
    }
    Bool is_asked = words.has_model && (current->l1d.tags || current->dtlb.tags || notes_hits(a));
    if (!is_asked && !words.has_tape) return;
    site *s = new_site(c, a->size, a->loads ? BY_LOAD : BY_STORE);
    s->notes_hits = notes_hits(a);
    s->stores_too = a->loads && a->stores;
    IRExpr *full = NULL, *guard = a->guard;
    const Bool happens[] = {a->loads, a->stores};
    for (UInt k = 0; words.has_tape && k < 2; k++) {
        if (!happens[k]) continue;
        if (guard) code_notes(c, KL_LOADS + k, c->pc, 1, IN_ACCESS, guard);
        else {
            s->access[s->items] = code_item(c, KL_LOADS + k, c->pc, 1, IN_ACCESS);
            full = code_or(c, full, code_takes(c, s->access + s->items++, NULL));
        }
    }
    if (!is_asked && !full) return;
    IRExpr *differs = is_asked ? machine_differs(c, a) : NULL;
    if (!guard && (differs || !is_asked))
        guard = code_is(c, Iop_CmpNE64, code_or(c, differs, full), code_word(0));
    code_call(c, guard, "model_sees_access", model_sees_access,
              mkIRExprVec_2(code_word((Addr)s), a->address));
    code_asks_machine(c);
}

static IRExpr *load_byte(code *c, IRExpr *address) {
    return code_make(
        c, Ity_I64,
        IRExpr_Unop(Iop_8Uto64, code_make(c, Ity_I8, IRExpr_Load(Iend_LE, Ity_I8, address))));
}

/* The predictor learns what a branch did. Not 0 if it was wrong. */
static IRExpr *predict(code *c, IRExpr *taken) {
    ULong last = current->branches.last,
          at_history = OFFSET(branches) + __builtin_offsetof(predictor, history);
    IRExpr *history = code_load_at(c, at_history);
    IRExpr *index = code_two(c, Iop_Xor64, history, code_word(c->pc & last));
    IRExpr *counter =
        code_two(c, Iop_Add64, code_two(c, Iop_Add64, c->base, index), code_word(layout.counters));
    IRExpr *before = load_byte(c, counter);
    IRExpr *key = code_two(c, Iop_Or64, code_shifted(c, Iop_Shl64, taken, 2), before);
    IRExpr *now = code_two(c, Iop_Add64, key, code_word((Addr)next_state));
    addStmtToIRSB(c->out, IRStmt_Store(Iend_LE, counter,
                                       code_make(c, Ity_I8, IRExpr_Load(Iend_LE, Ity_I8, now))));
    IRExpr *longer = code_two(c, Iop_Or64, code_shifted(c, Iop_Shl64, history, 1), taken);
    code_store_at(c, at_history, code_two(c, Iop_And64, longer, code_word(last)));
    return code_two(c, Iop_Xor64, code_shifted(c, Iop_Shr64, before, 1), taken);
}

Bool code_counts_outcomes(void) { return has_predictor() && !words.has_tape && !has_library; }

static void count_outcome(code *c, IRExpr *taken) {
    IRExpr *errs = code_shifted(c, Iop_Shl64, predict(c, taken), 1);
    IRExpr *offset = code_shifted(c, Iop_Shl64, code_two(c, Iop_Or64, errs, taken), 3);
    IRExpr *first = code_word(OFFSET(counts) + 8UL * RIGHT_NOT_TAKEN);
    IRExpr *at = code_two(c, Iop_Add64, code_two(c, Iop_Add64, c->base, offset), first);
    IRExpr *count = code_two(c, Iop_Add64, code_load(c, at), code_word(1));
    addStmtToIRSB(c->out, IRStmt_Store(Iend_LE, at, count));
    code_profiles_outcome(c, offset);
}

void code_branches(code *c, IRExpr *taken) {
    if (code_counts_outcomes()) {
        count_outcome(c, code_widened(c, taken));
        return;
    }
    if (!has_predictor() && !words.has_tape) return;
    IRExpr *full = NULL, *was_taken = code_widened(c, taken), *errs = code_word(0);
    site *s = new_site(c, c->size, BY_BRANCH);
    if (words.has_tape) {
        full = code_or(c, code_takes_line(c, &s->line), code_takes_branch(c, s->branch, taken));
        s->items = 1;
    }
    if (has_predictor()) errs = predict(c, was_taken);
    IRExpr *differs = code_or(c, full, has_predictor() ? errs : NULL);
    IRExpr *calls = code_is(c, Iop_CmpNE64, differs, code_word(0));
    code_call(c, calls, "model_sees_branch", model_sees_branch,
              mkIRExprVec_3(code_word((Addr)s), was_taken, errs));
    code_asks_machine(c);
}
