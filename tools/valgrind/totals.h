/* The counts of whole processes, for whoever started the run: each process writes what it did to a
 * file of its own when it ends.
 *
 * A process is named by its way from the first one: 1, and 1.2 for its second child. Its file has
 * that name, and these lines:
 *
 *     program PATH         a program begins; a byte that is none of a word of ASCII is \xNN
 *     thread N KIND COUNT  what a thread did in this program; of kinds but the first if it is not 0
 *     function NUMBER N    the calls of a function that the words name
 *     calls N              its calls of the library
 *     code NUMBER ENTRY OBJECT SYMBOL FILE LINE CALLS [KIND COUNT]..
 *                          for a profile: a function, how often it was called, and what it did with
 *                          all that it called; a name that is not known is \
 *     line FUNCTION LINE FILE INLINED [KIND COUNT]..
 *                          what a line did by itself, in the function that is inlined there; line 0
 *                          of a function without any
 *     call FUNCTION LINE FILE INLINED FUNCTION CALLS [KIND COUNT]..
 *                          calls from a line to a function
 *     children N           the processes that the process made so far
 *     ended                it ended; in its place `exec` if another program is to begin, and then
 *                          `stays` if none did
 *     refused              it called the library, and the machine is not whole */
#ifndef TOTALS_H
#define TOTALS_H
#include "core.h"

/* The words are known. */
void totals_begin(void);

void totals_of_thread(ThreadId tid);

/* Before a process is made, and in the two that there are then. */
void totals_before_fork(ThreadId tid);
void totals_of_parent(void);
void totals_of_child(void);

void totals_before_exec(void);
void totals_stay(void);
void totals_end(void);

/* The library asks for a machine of which only a part is modelled: the run ends. */
void totals_refuse(void) __attribute__((noreturn));

#endif
