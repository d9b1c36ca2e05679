/* What Valgrind's core tells of the program: its beginning and end, its threads, signals and system
 * calls. */
#ifndef EVENTS_H
#define EVENTS_H
#include "pub_tool_basics.h"
#include "pub_tool_guest.h"
#include "pub_tool_threadstate.h"
#include "pub_tool_tooliface.h"

void events_begin(void);
void events_end(Int status);
/* The program is in memory, and has run nothing. */
void program_is_loaded(void);
void forget_block(Addr first, VexGuestExtents extents);
void system_call_begins(ThreadId tid, UInt number, UWord *arguments, UInt count);
void system_call_ended(ThreadId tid, UInt number, UWord *arguments, UInt count, SysRes result);
void thread_begins(ThreadId parent, ThreadId tid);
void thread_ends(ThreadId tid);
void program_goes_on(ThreadId tid, ULong blocks);
void signal_comes(ThreadId tid, Int number, Bool is_on_other_stack);
/* Valgrind can't run this instruction, and the program gets a signal. */
void instruction_is_refused(Addr pc);

#endif
