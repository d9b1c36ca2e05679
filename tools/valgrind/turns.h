/* Whose turn it is. One thread runs at a time, and the lock of Valgrind's core says which. Here it
 * goes by the clocks of the threads, which count blocks of code: the thread whose clock is least
 * runs, however late the kernel lets it. So the order of threads is the program's own. */
#ifndef TURNS_H
#define TURNS_H
#include "pub_tool_basics.h"
#include "pub_tool_threadstate.h"
#include "pub_tool_vki.h"

#define BLOCK_NANOSECONDS 100ULL /* of the clocks */
#define NO_END (~0ULL)

typedef enum { WOKEN, TIME_IS_OUT, HAS_SIGNAL } why_woken;

/* What a thread waits for: until another one wakes it, or until a moment of its clock, which is
 * this one of the machine's, in nanoseconds. */
typedef struct {
    ULong until, machine_until;
    const vki_sigset_t *blocked; /* signals that do not end the wait */
    const volatile UInt *word;   /* of other processes too: the wait ends if it has another value */
    UInt value;
} waiting;

void turns_thread_begins(ThreadId parent, ThreadId tid);
/* At its end in its own code, or before it began. */
void turns_thread_ends(ThreadId tid);

/* The thread whose turn it is, whether there are others, and its clock. */
ThreadId turns_owner(void);
Bool turns_are_all(void); /* there can be no more threads */
Bool turns_are_shared(void);
ULong turns_clock(ThreadId tid);

/* All of these are of the thread whose turn it is. What is left of its turn goes to others. */
void turns_gives_way(void);
/* It waits, and has its turn again. */
why_woken turns_waits(const waiting *w);
/* A thread that waits goes on, once it is its turn. */
void turns_wake(ThreadId tid);
/* It sends a signal, and when it has, those that wait look whether they have one. */
void turns_sends_signal(void);
void turns_look_for_signals(void);
/* It is in a call of the system which takes so many blocks of its clock, or is answered from
 * outside. */
void turns_leaves_for(ULong blocks);
void turns_leaves(UInt call);

/* The parent of a new thread goes on. */
void turns_stays(void);

/* Signals that wait for the calling thread, and are not blocked: the first one, or 0. */
Int pending_signal(const vki_sigset_t *blocked);

/* The client's code stopped running. */
void turns_code_stops(ThreadId tid, ULong blocks);

/* The first call whose answer came from outside while other threads ran, or -1. */
Int undetermined_by(void);

/* By a clock of the machine. */
enum { MACHINE_REALTIME = 0, MACHINE_MONOTONIC = 1 };
ULong machine_nanoseconds(UInt clock);

#endif
