/* Threads: their ids, the list of them, and what they keep for the program. */
#define _GNU_SOURCE
#include "calls.h"
#include "holds.h"
#include "locks.h"
#include "papi.h"
#include "process.h"
#include "thread.h"

#include <pthread.h>
#include <stdatomic.h>
#include <unistd.h>

static struct { unsigned long (*_Atomic function)(void); atomic_int are_threads; } ids;

/* The id of the calling thread. The program's function may make calls itself. */
static PAPI_thread_id_t id_here(void) {
    unsigned long (*function)(void) = atomic_load(&ids.function);
    if (!function) return (PAPI_thread_id_t)getpid();
    kl_outside before = kl_user_begins();
    PAPI_thread_id_t id = function();
    kl_user_ends(before);
    return id;
}

/* Takes the id of the calling thread, and lists it. PAPI_ENOINIT if the program's function ends the
 * library. */
int kl_name_thread(thread_state *t) {
    const kl_hold hold = KL_HOLD(0);
    t->has_id = 1;
    const int place = kl_hold_on(t, &hold);
    PAPI_thread_id_t id = id_here();
    pthread_mutex_lock(&kl_lock);
    t->id = id;
    t->is_registered = 1;
    pthread_mutex_unlock(&kl_lock);
    return kl_let_go(t, place);
}

void kl_forget_ids(void) {
    atomic_store(&ids.function, NULL);
    atomic_store(&ids.are_threads, 0);
}

int PAPI_is_initialized(void) {
    CALL(PAPI_is_initialized);
    if (!atomic_load(&kl_generation)) return PAPI_NOT_INITED;
    return atomic_load(&ids.are_threads) ? PAPI_LOW_LEVEL_INITED | PAPI_THREAD_LEVEL_INITED
                                         : PAPI_LOW_LEVEL_INITED;
}

/* How many threads there are, and the ids of those that have room. */
static int list_ids(PAPI_thread_id_t *ids, void **kept, int tag, int room) {
    int count = 0;
    pthread_mutex_lock(&kl_lock);
    for (const thread_state *t = kl_first; t && !((ids || kept) && count == room); t = t->next) {
        if (!t->is_registered) continue;
        if (ids) ids[count] = t->id;
        if (kept) kept[count] = t->kept[tag];
        count++;
    }
    pthread_mutex_unlock(&kl_lock);
    return count;
}

/* The function is taken once, while there is one thread. Without one the id is that of the
 * process. */
static int support(thread_state *t, unsigned long (*id_fn)(void)) {
    if (atomic_load(&ids.are_threads)) return PAPI_OK;
    if (list_ids(NULL, NULL, 0, 0) > 1) return PAPI_EINVAL;
    if (atomic_exchange(&ids.are_threads, 1)) return PAPI_OK;
    atomic_store(&ids.function, id_fn);
    return kl_name_thread(t);
}

int PAPI_thread_init(unsigned long (*id_fn)(void)) {
    CALL(PAPI_thread_init);
    HERE(t);
    RETURN(support(t, id_fn));
}

static unsigned long own_id(void) { return (unsigned long)gettid(); }

/* What rates and regions need: ids are those of the system, as in PAPI. Where there are threads
 * already, their ids stay as they are. */
int kl_thread_support(void) {
    int code;
    thread_state *t = kl_current_thread(&code);
    if (t) code = support(t, own_id);
    return code == PAPI_EINVAL ? PAPI_OK : code;
}

unsigned long PAPI_thread_id(void) {
    CALL(PAPI_thread_id);
    return atomic_load(&ids.function) ? id_here() : (unsigned long)PAPI_EMISC;
}

int PAPI_register_thread(void) {
    CALL(PAPI_register_thread);
    HERE(t);
    int code = kistalub_register(&t->library);
    if (code != PAPI_OK) RETURN(code);
    RETURN(kl_name_thread(t));
}

/* PAPI_EMISC if the thread is not registered. Its event sets and its stream stay, and its next call
 * registers it again. */
int PAPI_unregister_thread(void) {
    CALL(PAPI_unregister_thread);
    thread_state *t = kl_peek_thread();
    if (!atomic_load(&kl_generation)) RETURN(PAPI_ENOINIT);
    int code = t ? kistalub_unregister(&t->library) : PAPI_EMISC;
    if (code != PAPI_OK) RETURN(code == PAPI_EINVAL || code == PAPI_ENOINIT ? PAPI_EMISC : code);
    pthread_mutex_lock(&kl_lock);
    t->is_registered = 0;
    pthread_mutex_unlock(&kl_lock);
    t->has_id = 0;
    return PAPI_OK;
}

int PAPI_list_threads(PAPI_thread_id_t *tids, int *number) {
    CALL(PAPI_list_threads);
    if (!atomic_load(&kl_generation)) RETURN(PAPI_ENOINIT);
    if (!number || (tids && *number <= 0)) RETURN(PAPI_EINVAL);
    *number = list_ids(tids, NULL, 0, *number);
    return PAPI_OK;
}

/* With PAPI_TLS_ALL_THREADS it is a PAPI_all_thr_spec_t that is filled. */
int PAPI_get_thr_specific(int tag, void **ptr) {
    CALL(PAPI_get_thr_specific);
    HERE(t);
    int all = tag >= 0 && tag & PAPI_TLS_ALL_THREADS;
    if (all) tag ^= PAPI_TLS_ALL_THREADS;
    if (!ptr || tag < 0 || tag >= PAPI_NUM_TLS) RETURN(PAPI_EINVAL);
    if (!all) {
        *ptr = t->kept[tag];
        return PAPI_OK;
    }
    PAPI_all_thr_spec_t *into = (void *)ptr;
    if ((into->id || into->data) && into->num <= 0) RETURN(PAPI_EINVAL);
    into->num = list_ids(into->id, into->data, tag, into->num);
    return PAPI_OK;
}

int PAPI_set_thr_specific(int tag, void *ptr) {
    CALL(PAPI_set_thr_specific);
    HERE(t);
    if (tag < 0 || tag >= PAPI_NUM_TLS) RETURN(PAPI_EINVAL);
    pthread_mutex_lock(&kl_lock);
    t->kept[tag] = ptr;
    pthread_mutex_unlock(&kl_lock);
    return PAPI_OK;
}
