#include "functions.h"

#include "pub_tool_aspacemgr.h"
#include "pub_tool_debuginfo.h"
#include "pub_tool_libcbase.h"
#include "pub_tool_libcprint.h"
#include "pub_tool_mallocfree.h"
#include "pub_tool_vki.h"
#include "pub_tool_xarray.h"

#include "words.h"

#define BUCKETS 16384
#define RUST_SIGN "::h" /* before the sixteen digits that end a name of Rust */
#define RUST_DIGITS 16

/* Of Valgrind's core: the symbols of an object with all their names, and what a name is in its
 * language. */
typedef struct { Addr main; } SymAVMAs;
extern Int VG_(DebugInfo_syms_howmany)(const DebugInfo *of);
extern void VG_(DebugInfo_syms_getidx)(const DebugInfo *of, Int number, SymAVMAs *at, UInt *size,
                                       const HChar **name, const HChar ***others, Bool *is_text,
                                       Bool *is_indirect, Bool *is_global);
extern Bool VG_(get_inst_offset_in_function)(DiEpoch epoch, Addr pc, PtrdiffT *offset);
extern void VG_(demangle)(Bool of_language, Bool of_tool, const HChar *name, const HChar **found);

typedef struct { const HChar *name; ULong calls; } named;
typedef struct { const DebugInfo *of; Addr begin; } object;

static XArray *names, *objects; /* objects: those whose symbols were looked at */
static function *buckets[BUCKETS];

void functions_take(const HChar *name) {
    const named n = {name, 0};
    if (!names) names = VG_(newXA)(VG_(malloc), "functions", VG_(free), sizeof n);
    VG_(addToXA)(names, &n);
}

UInt functions_names(void) { return names ? (UInt)VG_(sizeXA)(names) : 0; }
Bool functions_are_named(void) { return functions_names() != 0; }
Bool functions_are_followed(void) { return functions_are_named() || words.has_profile; }

static named *name_of(UInt number) { return VG_(indexXA)(names, number); }

ULong functions_calls(UInt name) { return name_of(name)->calls; }
void functions_count_call(const function *f) { name_of(f->name)->calls++; }

void functions_forget_calls(void) {
    for (UInt i = 0; i < functions_names(); i++) name_of(i)->calls = 0;
}

/* -- names -- */

/* Whether a name is another one, or that with something behind it that tells versions, arguments or
 * crates apart. */
static Bool is_name(const HChar *full, const HChar *name) {
    SizeT length = VG_(strlen)(name);
    if (VG_(strncmp)(full, name, length)) return False;
    const HChar *rest = full + length;
    if (!*rest || *rest == '@' || *rest == '(') return True;
    SizeT sign = sizeof RUST_SIGN - 1;
    return !VG_(strncmp)(rest, RUST_SIGN, sign) && VG_(strlen)(rest) == sign + RUST_DIGITS;
}

/* The last part of a name without its arguments: a symbol that lacks it is not of that name. */
static Bool may_be_name(const HChar *symbol, const HChar *name) {
    HChar part[256];
    const HChar *end = VG_(strchr)(name, '('), *from = name;
    if (!end) end = name + VG_(strlen)(name);
    for (const HChar *at = name; at < end; at++)
        if (*at == ':' || *at == ' ' || *at == '<') from = at + 1;
    SizeT length = (SizeT)(end - from);
    if (length >= sizeof part) return True;
    VG_(memcpy)(part, from, length);
    part[length] = 0;
    return VG_(strstr)(symbol, part) != NULL;
}

static Bool names_symbol(const HChar *name, const HChar *symbol) {
    const HChar *full;
    if (is_name(symbol, name)) return True;
    if (!may_be_name(symbol, name)) return False;
    VG_(demangle)(True, True, symbol, &full);
    return is_name(full, name);
}

/* -- addresses -- */

static UInt bucket_of(Addr pc) { return (UInt)(pc * 0x9e3779b97f4a7c15UL >> 40) % BUCKETS; }

static function *find(Addr pc) {
    function *f = buckets[bucket_of(pc)];
    while (f && f->entry != pc) f = f->next;
    return f;
}

static function *new_function(Addr pc) {
    static UInt count;
    function *f = VG_(calloc)("functions", 1, sizeof *f);
    *f = (function){.entry = pc, .number = count++, .next = buckets[bucket_of(pc)]};
    return buckets[bucket_of(pc)] = f;
}

static void follow(Addr pc, UInt name) {
    function *f = find(pc);
    if (!f) f = new_function(pc);
    f->name = name;
    f->is_named = True;
}

static void look_at_symbol(const DebugInfo *of, Int number) {
    SymAVMAs at;
    UInt size;
    const HChar *name, **others;
    Bool is_text, is_indirect, is_global;
    VG_(DebugInfo_syms_getidx)
    (of, number, &at, &size, &name, &others, &is_text, &is_indirect, &is_global);
    if (!is_text) return;
    for (UInt i = 0; i < functions_names(); i++) {
        Bool is_named = names_symbol(name_of(i)->name, name);
        for (const HChar **other = others; other && *other && !is_named; other++)
            is_named = names_symbol(name_of(i)->name, *other);
        if (is_named) follow(at.main, i);
    }
}

void functions_begin(Addr entry) {
    const DebugInfo *of = VG_(find_DebugInfo)(VG_(current_DiEpoch)(), entry);
    if (words.has_profile) function_called(entry);
    for (UInt i = 0; i < functions_names(); i++) {
        const HChar *name = name_of(i)->name;
        if (!of || VG_(strncmp)(name, "0x", 2)) continue;
        follow(VG_(strtoull16)(name, NULL) + (Addr)VG_(DebugInfo_get_text_bias)(of), i);
    }
}

static Bool is_known(const object *o) {
    for (Word i = 0; i < VG_(sizeXA)(objects); i++) {
        const object *known = VG_(indexXA)(objects, i);
        if (known->of == o->of && known->begin == o->begin) return True;
    }
    return False;
}

/* An object is looked at when its code is met first. */
static void look_at_object(Addr pc) {
    const DebugInfo *of = VG_(find_DebugInfo)(VG_(current_DiEpoch)(), pc);
    if (!of) return;
    const object o = {of, VG_(DebugInfo_get_text_avma)(of)};
    if (!objects) objects = VG_(newXA)(VG_(malloc), "functions", VG_(free), sizeof o);
    if (is_known(&o)) return;
    VG_(addToXA)(objects, &o);
    for (Int i = 0; i < VG_(DebugInfo_syms_howmany)(of); i++) look_at_symbol(of, i);
}

/* -- all functions, for a profile -- */

static XArray *targets; /* of calls, without symbols, by their addresses */

static Int compare(const void *one, const void *other) {
    Addr a = *(const Addr *)one, b = *(const Addr *)other;
    return a < b ? -1 : a > b;
}

static Bool begins_symbol(Addr pc, Addr *begin) {
    PtrdiffT offset;
    if (!VG_(get_inst_offset_in_function)(VG_(current_DiEpoch)(), pc, &offset)) return False;
    *begin = pc - (Addr)offset;
    return True;
}

static Bool is_target(Addr pc) {
    Word first, last;
    return targets && VG_(lookupXA)(targets, &pc, &first, &last);
}

static const HChar *copied(const HChar *name) { return VG_(strdup)("functions", name); }

const HChar *source_of(Addr pc, UInt *number) {
    static HChar *last;
    const HChar *file, *folder;
    *number = 0;
    if (!VG_(get_filename_linenum)(VG_(current_DiEpoch)(), pc, &file, &folder, number)) return NULL;
    HChar *name = VG_(malloc)("functions", VG_(strlen)(folder) + VG_(strlen)(file) + 2);
    VG_(sprintf)(name, "%s%s%s", folder, *folder && *file != '/' ? "/" : "", file);
    if (!last || VG_(strcmp)(last, name)) return last = name;
    VG_(free)(name);
    return last;
}

/* Between what the core says of an address itself and of its source. */
static const HChar *cut_name(HChar *said) {
    HChar *name = VG_(strstr)(said, ": "), *end = NULL;
    if (!name) return NULL;
    for (HChar *at = name += 2; *at; at++)
        if (at[0] == ' ' && at[1] == '(') end = at;
    if (end) *end = 0;
    return name;
}

const HChar *inlined_at(Addr pc) {
    static const HChar *last;
    DiEpoch now = VG_(current_DiEpoch)();
    InlIPCursor *cursor = VG_(new_IIPC)(now, pc);
    if (!cursor) return NULL;
    HChar *said = VG_(strdup)("functions", VG_(describe_IP)(now, pc, cursor));
    const HChar *name = cut_name(said);
    VG_(delete_IIPC)(cursor);
    if (name && (!last || VG_(strcmp)(last, name))) last = copied(name);
    VG_(free)(said);
    return name ? last : NULL;
}

static function *profiled(Addr entry, Addr pc) {
    const HChar *name;
    function *f = find(entry);
    if (f && f->is_profiled) return f;
    if (!f) f = new_function(entry);
    f->is_profiled = True;
    const DebugInfo *of = VG_(find_DebugInfo)(VG_(current_DiEpoch)(), pc);
    if (of) f->bias = (Addr)VG_(DebugInfo_get_text_bias)(of);
    if (VG_(get_objname)(VG_(current_DiEpoch)(), pc, &name)) f->object = copied(name);
    if (VG_(get_fnname)(VG_(current_DiEpoch)(), pc, &name)) f->symbol = copied(name);
    f->file = source_of(entry, &f->line);
    return f;
}

/* A stub of a table of linkage: a jump to what stands in memory, perhaps behind an endbr64. It is a
 * part of the call. */
static Bool is_stub(Addr pc) {
    const UChar *at = (const UChar *)pc;
    static const UChar endbr64[] = {0xF3, 0x0F, 0x1E, 0xFA};
    if (!VG_(am_is_valid_for_client)(pc, 16, VKI_PROT_READ)) return False;
    if (!VG_(memcmp)(at, endbr64, sizeof endbr64)) at += sizeof endbr64;
    if (*at == 0xF2) at++;
    return at[0] == 0xFF && at[1] == 0x25;
}

function *function_called(Addr pc) {
    Addr begin;
    if (begins_symbol(pc, &begin) || is_stub(pc)) return NULL;
    if (!is_target(pc)) {
        if (!targets) {
            targets = VG_(newXA)(VG_(malloc), "functions", VG_(free), sizeof pc);
            VG_(setCmpFnXA)(targets, compare);
        }
        VG_(addToXA)(targets, &pc);
        VG_(sortXA)(targets);
    }
    return profiled(pc, pc);
}

/* The last target of calls up to an address in the same object, or the object's beginning. */
static Addr target_before(Addr pc) {
    const DebugInfo *of = VG_(find_DebugInfo)(VG_(current_DiEpoch)(), pc);
    Addr first = of ? VG_(DebugInfo_get_text_avma)(of) : pc & ~(Addr)4095;
    for (Word i = targets ? VG_(sizeXA)(targets) : 0; i > 0; i--) {
        Addr target = *(const Addr *)VG_(indexXA)(targets, i - 1);
        if (target <= pc && target >= first) return target;
        if (target < first) break;
    }
    return first;
}

function *function_of(Addr pc) {
    Addr begin;
    if (!begins_symbol(pc, &begin)) begin = target_before(pc);
    return profiled(begin, pc);
}

void functions_each(void (*f)(function *of)) {
    for (UInt i = 0; i < BUCKETS; i++)
        for (function *of = buckets[i]; of; of = of->next) f(of);
}

void function_forgets(function *f) {
    f->calls = 0;
    VG_(memset)(f->inclusive, 0, sizeof f->inclusive);
}

function *function_at(Addr pc) {
    Addr begin;
    if (functions_are_named()) look_at_object(pc);
    if (words.has_profile && begins_symbol(pc, &begin) && begin == pc) return profiled(pc, pc);
    function *f = functions_are_named() ? find(pc) : NULL;
    if (!f || !f->is_named) return NULL;
    if (!words.has_profile) return f;
    function *called = function_called(pc);
    return called ? called : profiled(pc, pc);
}
