/* The kinds at places of a tape, by numbers, and the rooms of their lines. */
#ifndef SLOTS_H
#define SLOTS_H
#include "pub_tool_basics.h"

#include "kinds.h"

#define MOST_SLOTS (1u << 26)
#define MOST_ROOM 0x7fffffff

void slots_begin(void);

/* The slot of a kind at a place. That of INSTRUCTIONS has an even number, and that of CYCLES comes
 * behind it. */
UInt slot_of(UInt kind, Addr pc);
UInt slot_kind(UInt slot);
Addr slot_pc(UInt slot);

/* A line with the most that a line has. The amount stands from `digits` on, and the place from
 * `place` on. */
typedef struct { UChar digits, place, length; HChar text[45]; } full_line;

/* The lines of a slot, by the codes of the tool's words. A kind may have none. */
typedef struct { UInt count; full_line of[]; } full_lines;
const full_lines *slot_lines(UInt slot);

/* Rooms for all slots that there may be. They are 0, and take memory when they are used. */
Int *new_rooms(void);
void delete_rooms(Int *rooms);

/* Rooms that are never used up, for what is not noted; and rooms in which nothing has place, so
 * that all calls. */
Int *idle_rooms(void);
Int *full_rooms(void);

#endif
