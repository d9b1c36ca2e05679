#include "slots.h"

#include "pub_tool_aspacemgr.h"
#include "pub_tool_libcbase.h"
#include "pub_tool_mallocfree.h"
#include "pub_tool_libcprint.h"

#include "kinds.h"
#include "output.h"
#include "words.h"

#define FIRST_TABLE 8192
#define NO_PLACE (~(Addr)0)

/* lines: made when they are asked for */
typedef struct { Addr pc; UInt kind; full_lines *lines; } slot;

static slot *slots; /* the first two are none */
/* table: by their checksums, 0 where there is none */
static UInt used = 2, room, *table, last_place;
static Int *idle, *full;

static UInt place_of(UInt kind, Addr pc) {
    UInt place = (UInt)((pc * 64 + kind) * 0x9e3779b97f4a7c15UL >> 32) & last_place;
    while (table[place] && (slots[table[place]].pc != pc || slots[table[place]].kind != kind))
        place = (place + 1) & last_place;
    return place;
}

static void make_table(UInt size) {
    if (table) VG_(free)(table);
    table = VG_(calloc)("slots", size, sizeof *table);
    last_place = size - 1;
    for (UInt i = 2; i < used; i++)
        if (slots[i].pc != NO_PLACE) table[place_of(slots[i].kind, slots[i].pc)] = i;
}

void slots_begin(void) {
    idle = new_rooms();
    full = new_rooms();
    room = FIRST_TABLE;
    slots = VG_(malloc)("slots", room * sizeof *slots);
    make_table(2 * room);
}

static UInt new_slot(UInt kind, Addr pc) {
    if (used == MOST_SLOTS) fail("the program has too much code for a stream");
    if (used == room) {
        room *= 2;
        slots = VG_(realloc)("slots", slots, room * sizeof *slots);
        make_table(2 * room);
    }
    slots[used] = (slot){pc, kind, NULL};
    idle[used] = MOST_ROOM;
    if (pc != NO_PLACE) table[place_of(kind, pc)] = used;
    return used++;
}

UInt slot_of(UInt kind, Addr pc) {
    UInt found = table[place_of(kind, pc)];
    if (found) return found;
    if (kind != KL_INSTRUCTIONS && kind != KL_CYCLES) return new_slot(kind, pc);
    if (used & 1) new_slot(ALL_KINDS, NO_PLACE);
    found = new_slot(KL_INSTRUCTIONS, pc);
    new_slot(KL_CYCLES, pc);
    return kind == KL_INSTRUCTIONS ? found : found + 1;
}

UInt slot_kind(UInt number) { return slots[number].kind; }
Addr slot_pc(UInt number) { return slots[number].pc; }

static void make_line(full_line *line, event_code of, Addr pc) {
    line->digits = (UChar)VG_(sprintf)(line->text, CODE_FORMAT " ", of.select, of.umask);
    line->place =
        (UChar)(line->digits + VG_(sprintf)(line->text + line->digits, "%d", words.most_amount));
    line->length = (UChar)(line->place + VG_(sprintf)(line->text + line->place, " %lx\n", pc));
}

static full_lines *make_lines(const slot *s) {
    const kind_codes *codes = words.codes + s->kind;
    full_lines *lines = VG_(calloc)("slots", 1, sizeof *lines + codes->count * sizeof *lines->of);
    for (; lines->count < codes->count; lines->count++)
        make_line(&lines->of[lines->count], codes->of[lines->count], s->pc);
    return lines;
}

const full_lines *slot_lines(UInt number) {
    slot *s = slots + number;
    if (!s->lines) s->lines = make_lines(s);
    return s->lines;
}

Int *new_rooms(void) {
    Int *rooms = VG_(am_shadow_alloc)(MOST_SLOTS * sizeof *rooms);
    if (!rooms) fail("out of memory");
    return rooms;
}

void delete_rooms(Int *rooms) { VG_(am_munmap_valgrind)((Addr)rooms, MOST_SLOTS * sizeof *rooms); }

Int *idle_rooms(void) { return idle; }
Int *full_rooms(void) { return full; }
