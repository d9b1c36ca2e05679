/* What a thread has of the tool that counts a program while it runs, for the sources of live*.c. */
#ifndef KL_LIVE_THREAD_H
#define KL_LIVE_THREAD_H

#include "../tools/valgrind/kinds.h"
#include "papi.h"
#include "thread.h"

#include <stdint.h>

_Static_assert(LINE_KINDS <= 64, "a word has a bit for each kind");
#define KL_BIT(kind) ((uint64_t)1 << (kind))
#define KL_ALL_KINDS (KL_BIT(LINE_KINDS) - 1)

typedef struct { uint64_t of[LINE_KINDS]; } kl_amounts;

/* What a thread has of it. */
typedef struct live_thread {
    const kind_codes *codes; /* of the kinds, by the unit */
    /* The thread's counts up to which all has happened, but for what is left, and room for the next
     * ones. */
    kl_amounts counts[2];
    int seen;             /* which of the two */
    uint64_t left[LINE_KINDS][MOST_CODES]; /* of kinds that are wanted, by their codes */
    uint64_t wanted;      /* the kinds that a running set counts; all if the stream is kept */
    int is_in_turns;      /* a running set is multiplexed */
    int has_turn;         /* the tool stops the thread when its turn is over */
    /* It has had as many lines as a thread may have, and nothing more happens. */
    int has_ended;
    uint64_t armed;       /* the kinds that stop the thread */
    struct kl_kept *kept; /* its kept stream, or NULL */
} live_thread;

/* live_codes.c: the codes that a unit's events have: those that tools/count tells, if it tells them
 * of the unit's first component. Without its word they are those of examples/recorded.unit. If its
 * word is of another component nothing has a code. */
const kind_codes *kl_codes_of(kistalub *library);

/* live_counts.c: what is left of these kinds happens at this address, kind after kind, or if a
 * running set is multiplexed in turn. The core has been begun, and ends. A handler may jump out.
 * The thread's state may be gone afterwards, if a handler ended the library. */
void kl_happen(thread_state *t, uint64_t kinds, uint64_t address);

/* live_kinds.c: the kinds that an event counts, by its code in the thread's library. */
uint64_t kl_kinds_of(thread_state *t, uint32_t code);

/* live_keep.c: the thread's stream that is kept, if it is. What happened is added as lines, which
 * are then written. */
void kl_keep_begins(void);
void kl_keep_opens(thread_state *t);
void kl_keep_closes(thread_state *t);
int kl_keeps(const thread_state *t);
void kl_keep_adds(thread_state *t, const kistalub_occurrences *what, uint32_t amount);
void kl_keep_writes(thread_state *t);

/* live_stub.c: where the tool sends a thread that has passed what it was to stop at. */
void kl_live_stub(void);
/* live.c: the thread is there, after the instruction at `address`. */
void kl_live_stops(uint64_t address);

#endif
