/* Requests of the library inside the program (protocol.h). */
#ifndef REQUESTS_H
#define REQUESTS_H
#include "pub_tool_basics.h"
#include "pub_tool_threadstate.h"

Bool answer_request(ThreadId tid, UWord *asked, UWord *answer);

/* The calls of the library so far. */
ULong calls_made(void);

#endif
