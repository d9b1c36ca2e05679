/* What one thread has, and the list of those that the library has. */
#ifndef KL_THREAD_H
#define KL_THREAD_H

#include "files.h"
#include "limits.h"
#include "papi.h"

#include <signal.h>
#include <stddef.h>
#include <stdint.h>

/* holds.c: a call that goes on after a function of the user, which may end the library, or jump
 * out of the call: where its part of the stack ends, and where it returns to. A jump leaves
 * nothing of that part, so this is kept elsewhere. */
typedef struct { const void *end, *returns_to; int is_handler; } kl_hold;
#define MOST_HOLDS 16

/* How signals meet the calls of a thread: signals.c. */
enum { KL_CORE_READS = 1, KL_CORE_CHANGES };
typedef struct {
    int depth;           /* 0, or the call of the proved library that goes on */
    unsigned until_look; /* calls until it is looked for handlers of signals again */
    int looks;
    int are_waiting;
    sigset_t others, before; /* what waits, and what was blocked before */
    /* Sets that a handler stopped or reset while a call went on: bits by their own numbers. */
    uint64_t to_stop, to_reset;
} kl_signals;

/* silent.c: the kinds of lines of a stream. */
typedef struct { kistalub_occurrences *of; size_t count; } kl_heads;

/* codes.c: the thread's numbers for the process's codes, and back, each with 1 added: 0 is one
 * that is not known. */
typedef struct { uint32_t *inward, *outward, inward_count, outward_count; } kl_code_map;

/* What an event set has: sets.h. */
typedef struct kl_set kl_set;

/* What one thread has. It stays when the thread ends, with its library as long as that has a
 * set. */
typedef struct thread_state {
    /* In the list of the process. Under kl_lock, as are the number, the id, `is_registered`,
     * `has_ended` and `kept`. */
    struct thread_state *next;
    unsigned generation; /* of the library that it is a part of */
    uint32_t number;
    int is_opened, is_refused; /* its stream was read, or can't be */
    int is_lost;               /* a jump left the proved library in the midst of a change */
    kistalub library, opened;  /* as it is, and as it was opened */
    PAPI_thread_id_t id;
    int has_id, is_registered, has_ended;
    int end_rounds; /* of the destructors at the thread's end */
    void *kept[PAPI_NUM_TLS];
    uint32_t step;     /* what happens before a call that reads */
    uint64_t happened; /* how many occurrences of its stream have */
    int is_watched;    /* an event has a watch */
    /* Calls of the thread that go on after a function of the user: the first ones of them. */
    kl_hold holds[MOST_HOLDS];
    int hold_count;
    int has_left;   /* the thread has no more to do with it: the last of these calls closes it */
    uint32_t drawn; /* the last number of the generator of profiles */
    kl_heads heads; /* what occurs in its stream, over which events are judged (silent.c) */
    struct live_thread *live; /* what the tool that counts a program knows of it, or NULL */
    kl_signals signals;
    kl_code_map codes;
    uint32_t *presets; /* user events that stand for presets, by the places of these: codes.c */
    /* By the number that the program knows, that of the thread's library, with 1 added. */
    uint32_t *own_sets, own_set_count;
    int set_count;
    kl_set *sets[MOST_SETS]; /* by that of the thread's library */
} thread_state;

/* thread.c: the calling thread's state, or NULL with the code why there is none; and the same of
 * a thread that has it in this library already. `kl_enters` gives it one, under a number of its
 * own or the next one, and begins a library of the given generation with it, unless that is 0. */
thread_state *kl_current_thread(int *code);
thread_state *kl_peek_thread(void);
/* Whether the calling thread has ended but for its last destructors, in this library: it is none
 * of its threads, and asks for sets by their numbers as others do. Whether a state was its own,
 * and how much had happened to it. */
int kl_is_past(void);
int kl_was_own(const thread_state *owner);
uint64_t kl_past_time(void);
int kl_enters(const uint32_t *number, unsigned begun);
void kl_leaves(void);
int kl_prepare(void);
extern thread_state *kl_first; /* the list, under kl_lock */
void kl_forget_threads(void);
int kl_open_over(kistalub *library, const kl_files *files, uint32_t number, const text *stream);
void kl_close_library(thread_state *t);
void kl_close_state(thread_state *t);

/* threads.c */
int kl_name_thread(thread_state *t);
void kl_forget_ids(void);
int kl_thread_support(void);

#endif
