#include "profile.h"

#include "pub_tool_libcbase.h"
#include "pub_tool_libcprint.h"
#include "pub_tool_mallocfree.h"

#include "words.h"

#define BUCKETS 65536u
#define OUTCOMES 4

/* How often something of a block happened: its segment, a kind at an instruction, or the outcomes
 * of a branch. */
typedef enum { OF_SEGMENT, OF_KIND, OF_OUTCOMES } counted;
struct counter {
    ULong times[OUTCOMES];
    UShort at, kind;
    counted what;
    struct counter *next;
};

static line *lines[BUCKETS];
static edge *edges[BUCKETS];

static UInt mixed(Addr a, Addr b) {
    return (UInt)((a * 31 + b) * 0x9e3779b97f4a7c15UL >> 40) % BUCKETS;
}

/* -- lines -- */

static Bool is_same(const HChar *one, const HChar *other) {
    return one == other || (one && other && !VG_(strcmp)(one, other));
}

static Bool is_line(const line *one, const line *other) {
    return one->in == other->in && one->number == other->number &&
           is_same(one->file, other->file) && is_same(one->inlined, other->inlined);
}

static line *line_of(Addr pc) {
    line wanted = {.in = function_of(pc), .inlined = inlined_at(pc)};
    wanted.file = source_of(pc, &wanted.number);
    UInt bucket = mixed((Addr)wanted.in, wanted.number);
    for (line *l = lines[bucket]; l; l = l->next)
        if (is_line(l, &wanted)) return l;
    line *made = VG_(malloc)("profile", sizeof *made);
    wanted.next = lines[bucket];
    *made = wanted;
    return lines[bucket] = made;
}

/* -- blocks -- */

void profile_begins_block(block *b) {
    if (!words.has_profile) return;
    b->lines = block_memory(b, b->count * sizeof *b->lines);
    VG_(memset)(b->lines, 0, b->count * sizeof *b->lines);
}

/* The line of an instruction, which is known when it is translated. */
static void knows_line(code *c) {
    if (!c->of->lines[c->number]) c->of->lines[c->number] = line_of(c->pc);
}

static struct counter *new_counter(code *c, counted what, UInt at, UInt kind) {
    struct counter *made = block_memory(c->of, sizeof *made);
    *made = (struct counter){
        .what = what, .at = (UShort)at, .kind = (UShort)kind, .next = c->of->counters
    };
    c->of->counters = made;
    return made;
}

static void add(code *c, IRExpr *at, IRExpr *amount) {
    IRExpr *now = code_two(c, Iop_Add64, code_load(c, at), amount);
    addStmtToIRSB(c->out, IRStmt_Store(Iend_LE, at, now));
}

/* 1, or if functions are named 0 outside of their calls. */
static IRExpr *profiled(code *c) {
    return functions_are_named() ? code_load_at(c, OFFSET(profiled)) : code_word(1);
}

void code_profiles_segment(code *c) {
    if (!words.has_profile || !c->is_counted) return;
    add(c, code_word((Addr)new_counter(c, OF_SEGMENT, c->segment, 0)->times), profiled(c));
}

void code_profiles_guard(code *c, UInt kind, IRExpr *times) {
    if (!words.has_profile) return;
    if (functions_are_named()) times = code_two(c, Iop_And64, times, profiled(c));
    add(c, code_word((Addr)new_counter(c, OF_KIND, c->number, kind)->times), times);
}

void code_profiles_outcome(code *c, IRExpr *offset) {
    if (!words.has_profile) return;
    Addr times = (Addr)new_counter(c, OF_OUTCOMES, c->number, 0)->times;
    add(c, code_two(c, Iop_Add64, code_word(times), offset), profiled(c));
}

void profile_sees_instruction(code *c) {
    if (words.has_profile) knows_line(c);
}

static void add_to_line(const block *b, UInt number, UInt kind, ULong amount) {
    if (b->lines && b->lines[number]) b->lines[number]->own[kind] += amount;
}

void profile_adds(const core *c, UInt number, UInt kind, ULong amount) {
    if (words.has_profile && c->profiled && c->at) add_to_line(c->at, number, kind, amount);
}

static void take_segment(const block *b, const struct counter *of) {
    for (UInt i = 0; i < b->shares_count; i++) {
        const share *s = b->shares + i;
        if (s->segment != of->at) continue;
        add_to_line(b, s->instruction, s->kind, of->times[0] * (ULong)(Long)s->amount);
    }
}

void profile_takes_block(block *b) {
    if (!words.has_profile) return;
    for (struct counter *of = b->counters; of; of = of->next) {
        if (of->what == OF_SEGMENT && of->times[0]) take_segment(b, of);
        if (of->what == OF_KIND) add_to_line(b, of->at, of->kind, of->times[0]);
        for (UInt i = 0; of->what == OF_OUTCOMES && i < OUTCOMES; i++)
            add_to_line(b, of->at, RIGHT_NOT_TAKEN + i, of->times[i]);
        VG_(memset)(of->times, 0, sizeof of->times);
    }
}

/* -- calls -- */

edge *profile_edge(Addr site, function *to) {
    UInt bucket = mixed(site, (Addr)to);
    for (edge *e = edges[bucket]; e; e = e->next)
        if (e->site == site && e->to == to) return e;
    edge *made = VG_(calloc)("profile", 1, sizeof *made);
    *made = (edge){.site = site, .from = line_of(site), .to = to, .next = edges[bucket]};
    return edges[bucket] = made;
}

static void forget_block(block *b) {
    for (struct counter *of = b->counters; of; of = of->next)
        VG_(memset)(of->times, 0, sizeof of->times);
}

void profile_forgets(void) {
    if (!words.has_profile) return;
    blocks_each(forget_block);
    functions_each(function_forgets);
    for (UInt i = 0; i < BUCKETS; i++) {
        for (line *l = lines[i]; l; l = l->next) VG_(memset)(l->own, 0, sizeof l->own);
        for (edge *e = edges[i]; e; e = e->next) {
            e->calls = 0;
            VG_(memset)(e->inclusive, 0, sizeof e->inclusive);
        }
    }
}

/* -- what is written -- */

static void (*put)(const HChar *text);

static void put_number(ULong number) {
    HChar text[32];
    VG_(sprintf)(text, " %llu", number);
    put(text);
}

/* A name as one word. */
static void put_name(const HChar *name) {
    put(" ");
    if (!name || !*name) put("\\"); /* none */
    for (; name && *name; name++) {
        HChar text[8] = {*name, 0};
        UChar byte = (UChar)*name;
        if (byte <= ' ' || byte >= 127 || byte == '\\') VG_(sprintf)(text, "\\x%02x", byte);
        put(text);
    }
}

static void put_counts(const ULong counts[ALL_KINDS]) {
    ULong all[ALL_KINDS];
    VG_(memcpy)(all, counts, sizeof all);
    kinds_add_up(all);
    for (UInt i = 0; i < ALL_KINDS; i++) {
        if (!all[i] || !kind_names[i] || !counts_kind(i)) continue;
        put(" ");
        put(kind_names[i]);
        put_number(all[i]);
    }
    put("\n");
}

static void put_function(function *f) {
    if (!f->is_profiled) return;
    put("code");
    put_number(f->number);
    put_number(f->entry - f->bias);
    put_name(f->object);
    put_name(f->symbol);
    put_name(f->file);
    put_number(f->line);
    put_number(f->calls);
    put_counts(f->inclusive);
}

static void put_place(const line *l) {
    put_number(l->in->number);
    put_number(l->number);
    put_name(l->file);
    put_name(l->inlined);
}

static void put_line(const line *l) {
    put("line");
    put_place(l);
    put_counts(l->own);
}

static void put_edge(const edge *e) {
    put("call");
    put_place(e->from);
    put_number(e->to->number);
    put_number(e->calls);
    put_counts(e->inclusive);
}

static Bool has_some(const ULong counts[ALL_KINDS]) {
    for (UInt i = 0; i < ALL_KINDS; i++)
        if (counts[i]) return True;
    return False;
}

void profile_writes(void (*to)(const HChar *text)) {
    put = to;
    blocks_each(profile_takes_block);
    functions_each(put_function);
    for (UInt i = 0; i < BUCKETS; i++) {
        for (const line *l = lines[i]; l; l = l->next)
            if (has_some(l->own)) put_line(l);
        for (const edge *e = edges[i]; e; e = e->next)
            if (e->calls || has_some(e->inclusive)) put_edge(e);
    }
}
