/* c/live_counts.c over a core that takes so many lines and no more, and passes a threshold with
 * each line if it is told so: live_hands ROOM [jump | leave | turns] It prints each line that
 * happened, by its kind and amount, and a point behind each call. */
#include "../../c/posix.h"
#include "../../c/holds.h"
#include "../../c/limits.h"
#include "../../c/live_thread.h"
#include "../../c/sets.h"
#include "../../c/signals.h"
#include "../../c/thread.h"
#include "../../c/watches.h"

#include <setjmp.h>
#include <stdio.h>
#include <stdlib.h>
#include <string.h>

#define CALLS 3

static const kind_codes codes[LINE_KINDS] = {
    [KL_LOADS] = { 1, { { 'l', 1 } } }, [KL_STORES] = { 2, { { 's', 1 }, { 't', 1 } } }
};
static uint64_t room_of_thread;
static const char *mode = "";
static jmp_buf before_call;
static int is_in_core;

int kl_core_begins(thread_state *t) { return t && !is_in_core++; }
void kl_core_ends(thread_state *t) { is_in_core -= t != NULL; }
int kl_hold_on(thread_state *t, const kl_hold *hold) { return t && hold ? 5 : 0; }
int kl_let_go(thread_state *t, int place) {
    return t->has_left || place != 5 ? PAPI_ENOINIT : PAPI_OK;
}
void kl_keep_adds(thread_state *t, const kistalub_occurrences *what, uint32_t amount) {
    (void)t, (void)what, (void)amount;
}
void kl_keep_writes(thread_state *t) { (void)t; }

void kl_tell(thread_state *t, const kistalub_passing *passings, uint64_t told) {
    if (is_in_core || told != 1 || passings[0].address != 7) exit(4);
    if (!strcmp(mode, "jump")) longjmp(before_call, 1);
    t->has_left = !strcmp(mode, "leave");
}

/* Of one occurrence as much happens as has room, up to the second line that passes a threshold. */
static int one_happens(kistalub_occurrences *what, kistalub_passing *passings, uint64_t *told) {
    const int tells = !strcmp(mode, "jump") || !strcmp(mode, "leave");
    while (what->amount) {
        const uint32_t amount = what->amount < LARGEST_AMOUNT ? what->amount : LARGEST_AMOUNT;
        if (*told) return PAPI_EBUF;
        if (!room_of_thread--) return room_of_thread = 0, PAPI_EINVAL;
        printf("%c%u ", what->select, amount);
        what->amount -= amount;
        if (tells) passings[(*told)++] = (kistalub_passing){ 0, 0, what->address };
    }
    return PAPI_OK;
}

int kistalub_happen(kistalub *h, kistalub_occurrences *what, size_t whats,
                    kistalub_passing *passings, size_t room, uint64_t *told) {
    int code = PAPI_OK;
    if (!h || !is_in_core || room != MOST_EVENTS) exit(4);
    *told = 0;
    for (size_t i = 0; code == PAPI_OK && !*told && i < whats; i++) {
        if (what[i].component || what[i].kernel || what[i].umask != 1) exit(4);
        code = one_happens(&what[i], passings, told);
    }
    return code;
}

static void call(thread_state *t) {
    if (setjmp(before_call) == 0 && !t->has_left && !t->live->has_ended && kl_core_begins(t))
        kl_happen(t, KL_BIT(KL_LOADS) | KL_BIT(KL_STORES), 7);
    fputs(". ", stdout);
}

/* Before each call a thread has done some of both kinds. Calls that are jumped out of leave some to
 * the next ones. */
int main(int count, char **words) {
    static live_thread live = { .codes = codes };
    static thread_state thread = { .number = 3, .live = &live };
    if (count < 2) return 2;
    room_of_thread = strtoull(words[1], NULL, 10);
    if (count > 2) mode = words[2];
    live.is_in_turns = !strcmp(mode, "turns");
    for (int i = 0; i < CALLS; i++) {
        live.left[KL_LOADS][0] += live.is_in_turns ? 4 * LARGEST_AMOUNT : LARGEST_AMOUNT + 8;
        live.left[KL_STORES][0] += live.is_in_turns ? 2 * LARGEST_AMOUNT : 3;
        live.left[KL_STORES][1] += live.is_in_turns ? 2 * LARGEST_AMOUNT : 3;
        call(&thread);
    }
    while (!strcmp(mode, "jump") &&
           (live.left[KL_LOADS][0] || live.left[KL_STORES][0] || live.left[KL_STORES][1]))
        call(&thread);
    return 0;
}
