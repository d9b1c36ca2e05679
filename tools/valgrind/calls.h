/* Calls of the system that may wait, as those of a thread in its turn. What does not wait keeps the
 * turn, and what other threads answer waits for them here. */
#ifndef CALLS_H
#define CALLS_H
#include "pub_tool_basics.h"
#include "pub_tool_threadstate.h"

void calls_thread_begins(ThreadId tid);
/* At its end in its own code: those that join it go on. */
void calls_thread_ends(ThreadId tid);

void calls_begins(ThreadId tid, UInt number, const UWord *arguments);
void calls_ended(ThreadId tid, UInt number, const UWord *arguments, SysRes result);

void calls_of_child(ThreadId tid);

#endif
