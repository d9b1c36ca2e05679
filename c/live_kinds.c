/* Which kinds of occurrences an event counts. The core is asked: a library of its own counts the
 * event over three lines of each. */
#include "posix.h"
#include "../tools/valgrind/kinds.h"
#include "events.h"
#include "files.h"
#include "limits.h"
#include "live_thread.h"
#include "locks.h"
#include "papi.h"
#include "process.h"
#include "sets.h"
#include "silent.h"
#include "thread.h"

#include <pthread.h>
#include <stdint.h>
#include <stdio.h>
#include <stdlib.h>
#include <string.h>

/* What is known of native events, by their names. */
typedef struct known { struct known *next; uint64_t kinds; char name[]; } known;

static known *first; /* under kl_kinds_lock */

/* What so many occurrences add to what the set counts; 1 if that can't be told. */
static int64_t added(kistalub *h, uint32_t set, event_code code, uint32_t amount, int64_t *before) {
    kistalub_occurrences what = {
        .amount = amount, .select = code.select, .umask = code.umask
    };
    kistalub_passing passings[MOST_EVENTS];
    uint64_t told = 0;
    uint32_t count = 0;
    int64_t now[MOST_EVENTS] = { 0 };
    if (kistalub_happen(h, &what, 1, passings, MOST_EVENTS, &told) != PAPI_OK ||
        kistalub_read(h, set, now, MOST_EVENTS, &count) != PAPI_OK)
        return 1;
    int64_t more = now[0] - *before;
    *before = now[0];
    return more;
}

/* Of each code one occurrence happens, and twice the most that a line has. */
static int64_t added_by_kind(kistalub *h, uint32_t set, const kind_codes *codes, int64_t *before) {
    int64_t more = 0;
    for (unsigned i = 0; i < codes->count; i++) {
        more += added(h, set, codes->of[i], 1, before);
        more += added(h, set, codes->of[i], 2 * LARGEST_AMOUNT, before);
    }
    return more;
}

/* An event that counts edges adds 1 at the first of the lines of a kind, and so may one with a
 * least amount. What happens between two occurrences matters to it. */
static uint64_t counted_by(kistalub *h, const kind_codes *codes, const char *name) {
    uint32_t set = 0;
    uint64_t kinds = 0;
    int64_t before = 0;
    if (kistalub_create(h, &set) != PAPI_OK ||
        kistalub_set_domain(h, set, PAPI_DOM_USER | PAPI_DOM_KERNEL) != PAPI_OK ||
        kistalub_add_named(h, set, (const unsigned char *)name, strlen(name)) != PAPI_OK ||
        kistalub_start(h, set) != PAPI_OK)
        return KL_ALL_KINDS;
    for (int kind = 0; kind < LINE_KINDS; kind++) {
        int64_t more = added_by_kind(h, set, &codes[kind], &before);
        if (more == 1) return KL_ALL_KINDS;
        if (more) kinds |= KL_BIT(kind);
    }
    return kinds;
}

/* All kinds, if the core can't be asked. */
static uint64_t ask_core(const kind_codes *codes, const char *name) {
    const text nothing = { NULL, 0 };
    kistalub probe = KISTALUB_SHUT;
    kl_files *files = kl_hold_files();
    uint64_t kinds = KL_ALL_KINDS;
    if (!files) return kinds;
    if (kl_open_over(&probe, files, 0, &nothing) == PAPI_OK)
        kinds = counted_by(&probe, codes, name);
    kistalub_close(&probe);
    kl_release_files(files);
    return kinds;
}

/* What counts nothing is told when it is asked for first. */
static uint64_t kinds_of_native(const kind_codes *codes, const char *name) {
    uint64_t kinds;
    pthread_mutex_lock(&kl_kinds_lock);
    for (const known *k = first; k; k = k->next)
        if (!strcmp(k->name, name)) {
            kinds = k->kinds;
            pthread_mutex_unlock(&kl_kinds_lock);
            return kinds;
        }
    kinds = ask_core(codes, name);
    if (!kinds && kl_tells_silence())
        fprintf(stderr,
                "papi: %s counts 0, since nothing that is counted here counts for it "
                "(docs/RECORDING.md)\n",
                name);
    known *made = malloc(sizeof *made + strlen(name) + 1);
    if (made) {
        made->kinds = kinds;
        made->next = first;
        strcpy(made->name, name);
        first = made;
    }
    pthread_mutex_unlock(&kl_kinds_lock);
    return kinds;
}

uint64_t kl_kinds_of(thread_state *t, uint32_t code) {
    char name[NAME_ROOM];
    uint64_t kinds = 0;
    uint32_t place = 0;
    for (; kl_native_name(t, code, place, name) == PAPI_OK; place++)
        kinds |= kinds_of_native(t->live->codes, name);
    return place ? kinds : KL_ALL_KINDS;
}
