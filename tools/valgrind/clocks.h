/* The clock of each thread, in cycles: its own, and those that went by while it waited. Where a
 * thread waits for another one its clock is set to that one's, so what runs side by side takes the
 * time of one. */
#ifndef CLOCKS_H
#define CLOCKS_H
#include "pub_tool_basics.h"
#include "pub_tool_threadstate.h"

/* The cycles of a thread's clock. */
ULong clock_of(ThreadId tid);

/* A new thread's clock begins with that of its parent. */
void clocks_thread_begins(ThreadId parent, ThreadId tid);

/* What the first thread does now comes after what the other one did. */
void clocks_join(ThreadId tid, ThreadId other);

/* A call of the system that waits for a time lets it pass on the thread's clock. */
void clocks_call_begins(ThreadId tid, UInt number, const UWord *arguments);
void clocks_call_ended(ThreadId tid, UInt number, const UWord *arguments, SysRes result);

/* Whether a call only lets time pass, and how long, in nanoseconds. */
Bool clocks_only_waits(ThreadId tid, UInt number, const UWord *arguments, ULong *nanoseconds);

/* When a wait ends: on the clock of turns, and in nanoseconds of the machine's monotonic one. A
 * moment that the program computed from a time that it read is as far from there as it is. */
void clocks_end_of_wait(ThreadId tid, Bool is_absolute, UInt clock, Addr time, ULong *until,
                        ULong *machine_until);

/* So much time of a wait went by. */
void clocks_waited(ThreadId tid, ULong nanoseconds);

#endif
