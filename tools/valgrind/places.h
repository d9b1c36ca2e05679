/* The threads and their order, for turns.c and waits.c alone. */
#ifndef PLACES_H
#define PLACES_H
#include "turns.h"

/* WAITS: for another thread; OUTSIDE: for an answer of the system's. */
typedef enum { READY, WAITS, OUTSIDE } state;

typedef struct {
    state state;
    UInt number; /* they are numbered as they begin */
    Int lwp;     /* the kernel's number, 0 until it is known */
    ULong clock, until;
    Bool is_away; /* its turn may come, and it is not back yet */
    Bool ends, looks, is_woken;
    UInt call; /* OUTSIDE */
    /* How many turns there had been when it left, and when what it waits for was seen changed. */
    ULong left_at, changed_at;
    Int bell;
} place;

typedef struct {
    place *places;   /* by thread */
    ThreadId *alive; /* the threads that there are */
    UInt alive_count;
    ThreadId owner; /* 0: none can run */
    Long turn_left;
    ULong now, turns;
    Bool is_sending; /* a signal, to this process */
} turn_order;
extern turn_order order;

/* What is above is in use by one thread at a time. */
void gate_closes(void);
void gate_opens(void);

/* The gate is closed while all of these are called. */
void ring(place *p);
/* Sleeps until the bell rings, or for so long. */
void hear(place *p, ULong nanoseconds);
/* The turn goes on to the next thread. */
void pass_on(ThreadId from);
void wait_turn(ThreadId me);
/* Another thread can run now too. */
void has_rival_now(void);
/* An answer from outside comes at a moment of the machine's. */
void comes_back(place *me);

#endif
