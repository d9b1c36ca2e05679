/* What one thread has: opened at its first call, closed at its end if it has no set then, or when
 * it finds that the library of its calls has ended. */
#include "posix.h"
#include "calls.h"
#include "codes.h"
#include "files.h"
#include "high_level.h"
#include "holds.h"
#include "live.h"
#include "locks.h"
#include "options.h"
#include "papi.h"
#include "process.h"
#include "sets.h"
#include "signals.h"
#include "silent.h"
#include "streams.h"
#include "thread.h"

#include <limits.h>
#include <pthread.h>
#include <stdatomic.h>
#include <stdint.h>
#include <stdlib.h>
#include <string.h>

thread_state *kl_first;

/* In the round of destructors before the last one: tools that look at each access of memory end
 * what they have of the thread in the last. */
#define END_ROUND (PTHREAD_DESTRUCTOR_ITERATIONS - 1)

/* The thread's state, with the generation that it is of: a state that has ended may be closed by
 * another thread when the library ends. Each call looks it up, and calls nothing for that. */
static _Thread_local struct {
    thread_state *state;
    unsigned generation;
    int is_past;
} own __attribute__((tls_model("initial-exec")));
/* What is left to a thread whose part is closed, while its last destructors run: when that was, and
 * which state it had. Another thread may free that. */
static _Thread_local struct { const thread_state *state; uint64_t happened; } past;
static struct { _Atomic pthread_key_t key; atomic_int is_made; int are_forks_guarded; } at_end;
static uint32_t next_number; /* under kl_lock */

/* What a thread without sets has no more use for. */
void kl_close_library(thread_state *t) {
    kistalub_close(&t->library);
    kl_drop_heads(&t->heads);
    kl_drop_codes(t);
    kl_unnumber_sets(t);
    kl_live_closes(t);
}

void kl_close_state(thread_state *t) {
    kl_close_library(t);
    free(t);
}

/* Takes a state out of the list, if it is there. Under kl_lock. */
static void unlist(const thread_state *t) {
    for (thread_state **at = &kl_first; *at; at = &(*at)->next)
        if (*at == t) {
            *at = t->next;
            break;
        }
}

/* The thread has no more to do with a state. A call that goes on after a handler closes it when it
 * ends. */
static void leave(thread_state *t) {
    pthread_mutex_lock(&kl_lock);
    unlist(t);
    pthread_mutex_unlock(&kl_lock);
    t->has_left = 1;
    if (!t->hold_count) kl_close_state(t);
}

void kl_leaves(void) {
    thread_state *t = own.state;
    own.state = NULL;
    if (!t || own.is_past) return;
    if (at_end.is_made) pthread_setspecific(at_end.key, NULL);
    kl_forget_jumps(t);
    leave(t);
}

/* The thread is one of those that have ended. Its sets are known by their numbers until they are
 * destroyed, and it is listed until the library ends. */
static void keep(thread_state *t) {
    pthread_mutex_lock(&kl_ended_lock);
    pthread_mutex_lock(&kl_lock);
    int stays = t->generation == atomic_load(&kl_generation) && (t->is_registered || t->set_count);
    if (stays) t->has_ended = 1;
    else unlist(t);
    pthread_mutex_unlock(&kl_lock);
    if (!stays) kl_close_state(t);
    else if (!t->set_count) kl_close_library(t);
    pthread_mutex_unlock(&kl_ended_lock);
}

/* A program stops and reads its sets in destructors of its own, in any of the rounds. */
static void thread_ends(void *state) {
    thread_state *t = state;
    if (++t->end_rounds < END_ROUND && pthread_setspecific(at_end.key, t) == 0) return;
    own.is_past = 1;
    t->hold_count = 0; /* a handler may end the thread */
    kl_rate_ends();
    kl_regions_end();
    own.state = NULL;
    past.state = t;
    past.happened = t->happened;
    keep(t);
}

int kl_is_past(void) {
    unsigned generation = atomic_load(&kl_generation);
    return own.is_past && !own.state && generation && own.generation == generation;
}

int kl_was_own(const thread_state *owner) { return kl_is_past() && past.state == owner; }

uint64_t kl_past_time(void) { return kl_is_past() ? past.happened : 0; }

/* A library that begins anew has none of the threads of the one before. Those that live find that
 * out by themselves. */
void kl_forget_threads(void) {
    thread_state *ended = NULL;
    pthread_mutex_lock(&kl_ended_lock);
    pthread_mutex_lock(&kl_lock);
    while (kl_first) {
        thread_state *t = kl_first;
        kl_first = t->next;
        if (!t->has_ended) continue;
        t->next = ended;
        ended = t;
    }
    next_number = 0;
    atomic_store(&kl_generation, 0);
    pthread_mutex_unlock(&kl_lock);
    while (ended) {
        thread_state *t = ended;
        ended = t->next;
        kl_close_state(t);
    }
    kl_forget_set_numbers();
    pthread_mutex_unlock(&kl_ended_lock);
}

/* A forked process has the calling thread, and those that had ended. What other threads had may be
 * in the midst of a call, and stays. */
static void child_begins(void) {
    for (thread_state **at = &kl_first; *at;)
        if (*at == own.state || (*at)->has_ended) at = &(*at)->next;
        else *at = (*at)->next;
}

/* A shared library that is unloaded leaves no function of its own to be called. */
__attribute__((destructor)) static void unload(void) {
    if (atomic_exchange(&at_end.is_made, 0)) pthread_key_delete(at_end.key);
}

/* Under kl_beginning. A program that ends may begin the library once more after this. */
int kl_prepare(void) {
    pthread_key_t key;
    if (!at_end.are_forks_guarded)
        at_end.are_forks_guarded = kl_guard_forks(child_begins) == PAPI_OK;
    if (!at_end.is_made && pthread_key_create(&key, thread_ends) == 0) {
        at_end.key = key;
        at_end.is_made = 1;
    }
    return at_end.are_forks_guarded && at_end.is_made ? PAPI_OK : PAPI_ENOMEM;
}

static int is_taken(uint32_t number) {
    for (const thread_state *t = kl_first; t; t = t->next)
        if (t->number == number && !t->has_ended) return 1;
    return 0;
}

/* Lists a state under the asked number, or under the next one. PAPI_EINVAL if another thread has
 * the number. */
static int list_under(thread_state *t, const uint32_t *asked) {
    thread_state **end = &kl_first;
    if (asked && is_taken(*asked)) return PAPI_EINVAL;
    while (!asked && is_taken(next_number)) next_number++;
    t->number = asked ? *asked : next_number++;
    while (*end) end = &(*end)->next;
    *end = t;
    return PAPI_OK;
}

/* Lists a new state for the calling thread. */
static int enter(thread_state *t, const uint32_t *asked, unsigned begun) {
    pthread_mutex_lock(&kl_lock);
    if (begun) atomic_store(&kl_generation, begun);
    t->generation = atomic_load(&kl_generation);
    int code = t->generation ? list_under(t, asked) : PAPI_ENOINIT;
    if (code == PAPI_OK && pthread_setspecific(at_end.key, t)) {
        unlist(t);
        code = PAPI_ENOMEM;
    }
    pthread_mutex_unlock(&kl_lock);
    return code;
}

/* A thread that has ended is not in the library again. */
int kl_enters(const uint32_t *asked, unsigned begun) {
    kl_leaves();
    if (own.is_past || (!begun && !kl_is_open())) return PAPI_ENOINIT;
    thread_state *t = calloc(1, sizeof *t);
    if (!t) return PAPI_ENOMEM;
    int code = enter(t, asked, begun);
    if (code != PAPI_OK) {
        free(t);
        return code;
    }
    own.state = t;
    own.generation = t->generation;
    return PAPI_OK;
}

thread_state *kl_peek_thread(void) {
    unsigned generation = atomic_load(&kl_generation);
    return generation && own.state && own.generation == generation ? own.state : NULL;
}

/* Opens a library over the files of the process and the bytes of a stream. */
int kl_open_over(kistalub *library, const kl_files *files, uint32_t number, const text *stream) {
    static const unsigned char nothing[1];
    return kistalub_open(library, files->unit.bytes, files->unit.length,
                         files->presets.bytes ? files->presets.bytes : nothing,
                         files->presets.length, (const unsigned char *)files->cpu,
                         strlen(files->cpu), number, stream->bytes ? stream->bytes : nothing,
                         stream->length);
}

static int open_library(thread_state *t) {
    text bytes = { NULL, 0 };
    kl_stream *stream = NULL;
    kl_files *files = kl_hold_files();
    if (!files) return PAPI_ENOINIT;
    int code = kl_is_live() ? PAPI_OK : kl_take_stream(files, t->number, &stream, &bytes);
    if (code == PAPI_OK) {
        if (kl_tells_silence()) code = kl_take_heads(&bytes, &t->heads);
        if (code == PAPI_OK) code = kl_open_over(&t->library, files, t->number, &bytes);
        kl_give_stream(stream);
    }
    kl_release_files(files);
    return code == PAPI_OK ? kistalub_register(&t->library) : code;
}

/* What is wrong with a stream is said once, and answered by each call of the thread. */
static int open_state(thread_state *t) {
    int code = t->is_refused ? PAPI_ESYS : open_library(t);
    if (code == PAPI_OK) code = kl_live_opens(t);
    t->is_refused = code == PAPI_ESYS;
    if (code != PAPI_OK) return code;
    t->opened = t->library;
    t->step = atomic_load(&kl_step);
    t->is_opened = 1;
    return PAPI_OK;
}

/* A thread that unregistered has a library still, which registers it again. */
static int name_state(thread_state *t) {
    int code = kl_name_thread(t);
    return code == PAPI_OK && t->is_opened ? kistalub_register(&t->library) : code;
}

/* A thread is listed before its stream is read. The function that gives its id may make calls,
 * which then open the library. */
static int enter_and_open(void) {
    int code = kl_peek_thread() ? PAPI_OK : kl_enters(NULL, 0);
    if (code == PAPI_OK && own.state->is_lost) code = PAPI_ECLOST;
    if (code == PAPI_OK && !own.state->has_id) code = name_state(own.state);
    return code == PAPI_OK && !own.state->is_opened ? open_state(own.state) : code;
}

/* A handler of a signal that interrupts this does not begin the thread again. */
static __attribute__((noinline)) thread_state *begin_thread(int *code) {
    *code = PAPI_ENOINIT;
    if (kl_interrupts()) return NULL;
    if (kl_is_open()) kl_look_for_handlers();
    kl_change_enters();
    *code = enter_and_open();
    kl_change_leaves();
    return *code == PAPI_OK ? own.state : NULL;
}

thread_state *kl_current_thread(int *code) {
    thread_state *t = kl_peek_thread();
    *code = PAPI_OK;
    return t && t->is_opened && t->has_id ? t : begin_thread(code);
}

int kistalub_thread(uint32_t number) {
    CALL(kistalub_thread);
    const thread_state *t = kl_peek_thread();
    if (!kl_is_open()) return PAPI_ENOINIT;
    if (t) return t->number == number ? PAPI_OK : PAPI_EINVAL;
    return kl_enters(&number, 0);
}
