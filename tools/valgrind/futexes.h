/* The calls by which threads of one process wait for each other: they wait here and not in the
 * system, and are woken in the order in which they came. */
#ifndef FUTEXES_H
#define FUTEXES_H
#include "pub_tool_basics.h"
#include "pub_tool_guest.h"
#include "pub_tool_threadstate.h"
#include "pub_tool_vki.h"

/* Answers a futex call of the thread whose turn it is: False if the system has to. */
Bool futex_call(ThreadId me, const VexGuestAMD64State *state, const vki_sigset_t *blocked,
                Long *answer);

/* Wakes threads that wait at an address, at most so many, and says how many. */
Long futex_wake(Addr at, Long most, UInt bits);

/* A child of fork has no other threads. */
void futexes_of_child(void);

#endif
