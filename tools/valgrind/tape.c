#include "tape.h"

#include "pub_tool_aspacemgr.h"
#include "pub_tool_libcbase.h"
#include "pub_tool_mallocfree.h"

#include "output.h"
#include "slots.h"
#include "words.h"

#define FIRST_ORDER 4096
#define SHOWN_EVERY (1 << 20)

struct tape {
    stream *out;
    Int *rooms;
    UInt *begun_in; /* the window in which a slot's line began */
    UInt *order;    /* the slots in use, in the order in which their lines began */
    UInt used, order_room, window;
    Bool is_noting;

    /* The straight line of instructions that goes on: its first address, and what follows it. */
    Addr line_pc, line_end;
    UInt line_count;        /* its instructions so far, 0 if none goes on */
    Addr turning;           /* the instruction that repeats itself now */
    /* The count of instructions at which the window began; one that is turning is not in that count
     * yet. */
    Long window_base;

    const block *slow; /* the block that runs slowly */
    UInt next, begun;  /* its instruction that comes next, and how many begun as its code says */
    Bool is_next_begun;
    /* instructions of the window, and those of the thread when the block began */
    Long in_window, counted;
};

static ULong totals[LINE_KINDS], seen, shown;

static Long instructions_of(const core *c) { return (Long)c->counts[KL_INSTRUCTIONS]; }

tape *new_tape(core *c) {
    tape *t = VG_(calloc)("tape", 1, sizeof *t);
    t->out = stream_of(c->number);
    t->rooms = new_rooms();
    t->begun_in = (UInt *)new_rooms();
    t->order_room = FIRST_ORDER;
    t->order = VG_(malloc)("tape", t->order_room * sizeof *t->order);
    t->window = 1;
    t->is_noting = True;
    c->rooms = t->rooms;
    c->check_at = 0;
    return t;
}

/* -- lines -- */

static void write_full_line(const tape *t, UInt slot) {
    const full_lines *lines = slot_lines(slot);
    totals[slot_kind(slot)] += (ULong)words.most_amount;
    for (UInt i = 0; i < lines->count; i++)
        stream_puts(t->out, lines->of[i].text, lines->of[i].length, slot_pc(slot));
}

static void write_amount(const tape *t, const full_line *full, UInt amount, Addr pc) {
    HChar line[sizeof full->text + 20], digits[20];
    UInt length = full->digits, count = 0, rest = full->length - full->place;
    VG_(memcpy)(line, full->text, length);
    do digits[count++] = (HChar)('0' + amount % 10);
    while (amount /= 10);
    while (count) line[length++] = digits[--count];
    VG_(memcpy)(line + length, full->text + full->place, rest);
    stream_puts(t->out, line, length + rest, pc);
}

static void write_line(const tape *t, UInt slot, UInt amount) {
    const full_lines *lines = slot_lines(slot);
    totals[slot_kind(slot)] += amount;
    for (UInt i = 0; i < lines->count; i++) write_amount(t, lines->of + i, amount, slot_pc(slot));
}

static void begin_line(tape *t, UInt slot) {
    if (t->used == t->order_room) {
        t->order_room *= 2;
        t->order = VG_(realloc)("tape", t->order, t->order_room * sizeof *t->order);
    }
    t->order[t->used++] = slot;
    t->begun_in[slot] = t->window;
    t->rooms[slot] = words.most_amount;
}

static void note(tape *t, UInt slot, UInt amount) {
    if (words.is_each) {
        UInt part;
        for (; amount; amount -= part) {
            part = amount < (UInt)words.most_amount ? amount : (UInt)words.most_amount;
            write_line(t, slot, part);
        }
        return;
    }
    if (t->begun_in[slot] != t->window) begin_line(t, slot);
    Int room = t->rooms[slot] - (Int)amount;
    for (; room < 0; room += words.most_amount) write_full_line(t, slot);
    t->rooms[slot] = room;
}

static void flush(tape *t) {
    for (UInt i = 0; i < t->used; i++) {
        UInt slot = t->order[i], amount = (UInt)(words.most_amount - t->rooms[slot]);
        if (amount) write_line(t, slot, amount);
        t->rooms[slot] = 0;
    }
    t->used = 0;
    t->window++;
}

/* -- straight lines and windows -- */

static void end_line(tape *t) {
    if (!t->line_count) return;
    UInt slot = slot_of(KL_INSTRUCTIONS, t->line_pc);
    note(t, slot, t->line_count);
    note(t, slot + 1, t->line_count);
    t->line_count = 0;
}

static void end_window(tape *t) {
    end_line(t);
    flush(t);
    seen += (ULong)t->in_window;
    t->in_window = 0;
    if (seen - shown < SHOWN_EVERY) return;
    shown = seen;
    report("progress %llu", seen);
}

/* The next instruction of a slow block begins. */
static void begin_next(tape *t) {
    if (t->is_next_begun) return;
    const instruction *i = t->slow->instructions + t->next;
    t->is_next_begun = True;
    if (i->pc != t->line_end) end_line(t);
    if (!t->line_count++) t->line_pc = i->pc;
    t->line_end = i->pc + i->size;
}

static void pass_next(tape *t) {
    begin_next(t);
    t->is_next_begun = False;
    t->next++;
    if (words.is_each) end_line(t);
    if (++t->in_window >= words.window) end_window(t);
}

/* Goes on to where something happens. */
static void reach(tape *t, UInt number, Bool is_fetch) {
    while (t->next < number) pass_next(t);
    if (t->next > number) return;
    if (is_fetch) begin_next(t);
    else pass_next(t);
}

static void set_base(core *c, tape *t) {
    t->window_base = instructions_of(c) - t->in_window + (t->turning != 0);
}

static void end_slow_block(core *c, tape *t) {
    if (!t->slow) return;
    Long counted = instructions_of(c) - t->counted;
    UInt begun = counted > t->begun ? (UInt)counted : t->begun;
    while (t->next < begun && t->next < t->slow->count) pass_next(t);
    t->slow = NULL;
    c->rooms = t->rooms;
    set_base(c, t);
}

static void begin_slow_block(core *c, tape *t, const block *b) {
    t->slow = b;
    t->next = t->begun = 0;
    t->is_next_begun = False;
    t->counted = instructions_of(c);
    c->rooms = full_rooms();
    c->check_at = 0;
}

/* -- called by generated code -- */

static tape *noting_tape(core *c) { return c->tape && c->tape->is_noting ? c->tape : NULL; }

void tape_sees_block(const block *b) {
    core *c = current;
    tape *t = noting_tape(c);
    if (!t) return;
    end_slow_block(c, t);
    if (t->turning && b->begins_repeated && t->turning == b->pc) return;
    t->turning = 0;
    if (t->line_count && t->line_end != b->pc) end_line(t);
    t->in_window = instructions_of(c) - t->window_base;
    Bool is_quick = !words.is_each && !t->line_count && !b->begins_repeated &&
                    t->in_window + b->count < words.window;
    if (is_quick) c->check_at = t->window_base + words.window;
    else begin_slow_block(c, t, b);
}

void tape_sees_amount(const item *i, ULong amount) {
    core *c = current;
    tape *t = noting_tape(c);
    if (!t) {
        idle_rooms()[i->slot] = MOST_ROOM;
        return;
    }
    if (!t->slow) {
        t->rooms[i->slot] += (Int)amount;
        note(t, i->slot, (UInt)amount);
        return;
    }
    full_rooms()[i->slot] = 0;
    reach(t, i->instruction, i->is_fetch);
    note(t, i->slot, (UInt)amount);
}

void tape_sees_item(const item *i) { tape_sees_amount(i, i->amount); }
void tape_sees_branch(const item *pair, ULong taken) { tape_sees_amount(pair + taken, 1); }

/* Puts two rooms at once to what they were. */
static void give_back(Int *rooms, ULong amount) {
    ULong both;
    VG_(memcpy)(&both, rooms, sizeof both);
    both += amount | amount << 32;
    VG_(memcpy)(rooms, &both, sizeof both);
}

void tape_sees_line(const item *i) {
    core *c = current;
    ULong amount = i->amount;
    tape *t = noting_tape(c);
    if (!t) {
        idle_rooms()[i->slot] = idle_rooms()[i->slot + 1] = MOST_ROOM;
        return;
    }
    if (!t->slow) {
        give_back(t->rooms + i->slot, amount);
        note(t, i->slot, (UInt)amount);
        note(t, i->slot + 1, (UInt)amount);
        return;
    }
    full_rooms()[i->slot] = full_rooms()[i->slot + 1] = 0;
    reach(t, i->instruction, i->is_fetch);
    end_line(t);
}

void tape_sees_open_line(const open_line *o) {
    core *c = current;
    tape *t = noting_tape(c);
    if (!t) return;
    const instruction *first = o->of->instructions + o->line,
                      *last = o->of->instructions + o->count - 1;
    Addr turning = o->is_turn ? last->pc : 0;
    if (t->slow) t->begun = o->count;
    else if (!t->turning) {
        t->line_pc = first->pc;
        t->line_end = last->pc + last->size;
        t->line_count = o->count - o->line;
        c->check_at = 0;
    }
    t->turning = turning;
}

void tape_notes(core *c, UInt slot, UInt amount, UInt instruction_number, Bool is_fetch) {
    tape *t = noting_tape(c);
    if (!t || !amount) return;
    if (t->slow) reach(t, instruction_number, is_fetch);
    note(t, slot, amount);
}

/* -- from outside -- */

void tape_sees_fault(core *c, const block *b, UInt number) {
    tape *t = noting_tape(c);
    if (!t) return;
    UInt first = number;
    while (first && b->instructions[first - 1].segment == b->instructions[number].segment) first--;
    const open_line o = {b, (UShort)(number + 1), (UShort)first, False};
    tape_sees_open_line(&o);
    /* The one that faults is not counted, and yet it is in the window. */
    if (!t->slow) t->window_base--;
}

void tape_leaves_block(core *c) {
    tape *t = c->tape;
    end_slow_block(c, t);
    c->check_at = t->is_noting ? 0 : NEVER;
}

void tape_stops(core *c) {
    tape *t = c->tape;
    if (!t->is_noting) return;
    end_slow_block(c, t);
    t->in_window = instructions_of(c) - t->window_base;
    end_line(t);
    t->turning = 0;
    t->is_noting = False;
    c->rooms = idle_rooms();
    c->check_at = NEVER;
}

void tape_starts(core *c) {
    tape *t = c->tape;
    if (t->is_noting) return;
    t->is_noting = True;
    set_base(c, t);
    c->rooms = t->rooms;
    c->check_at = 0;
}

void tape_ends_window(core *c) {
    tape *t = c->tape;
    if (t->is_noting) {
        end_slow_block(c, t);
        t->in_window = instructions_of(c) - t->window_base + (t->turning != 0);
    }
    end_window(t);
    set_base(c, t);
    if (t->is_noting) c->check_at = 0;
}

const ULong *tape_totals(void) { return totals; }

void tape_flushes(core *c) { stream_flushes(c->tape->out); }

void tape_ends(core *c) {
    tape *t = c->tape;
    tape_ends_window(c);
    stream_ends(t->out);
    delete_rooms(t->rooms);
    delete_rooms((Int *)t->begun_in);
    VG_(free)(t->order);
    VG_(free)(t);
    c->tape = NULL;
    c->rooms = idle_rooms();
}
