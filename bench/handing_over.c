/* So many occurrences of each kind that has a code are handed over to a library in which a set of
 * three events runs, so many times: handing_over TIMES AMOUNT. It calls what c/live.c calls, in
 * place of the tool's counts. */
#include "../c/live_thread.h"
#include "../c/signals.h"
#include "../c/thread.h"
#include "papi.h"

#include <stdio.h>
#include <stdlib.h>

static const char *const names[] = { "PAPI_TOT_INS", "PAPI_LD_INS", "PAPI_BR_TKN" };
#define EVENTS (sizeof names / sizeof *names)

static int begin(int *set) {
    if (PAPI_library_init(PAPI_VER_CURRENT) != PAPI_VER_CURRENT ||
        PAPI_create_eventset(set) != PAPI_OK)
        return 0;
    for (size_t i = 0; i < EVENTS; i++)
        if (PAPI_add_named_event(*set, names[i]) != PAPI_OK) return 0;
    return PAPI_start(*set) == PAPI_OK;
}

static void did(live_thread *live, uint64_t amount) {
    for (int kind = 0; kind < LINE_KINDS; kind++)
        for (unsigned i = 0; i < live->codes[kind].count; i++) live->left[kind][i] = amount;
}

int main(int count, char **words) {
    static live_thread live;
    int set = PAPI_NULL;
    long long values[EVENTS];
    if (count != 3) return 2;
    const long times = atol(words[1]);
    const uint64_t amount = strtoull(words[2], NULL, 10);
    if (!begin(&set)) return 1;
    thread_state *t = kl_peek_thread();
    live.codes = kl_codes_of(&t->library);
    t->live = &live;
    for (long i = 0; i < times; i++) {
        did(&live, amount);
        if (!kl_core_begins(t)) return 1;
        kl_happen(t, KL_ALL_KINDS, 0);
    }
    t->live = NULL;
    if (PAPI_stop(set, values) != PAPI_OK) return 1;
    for (size_t i = 0; i < EVENTS; i++)
        if (values[i] != (long long)amount * times) return 1;
    return 0;
}
