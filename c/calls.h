/* How each function of papi.h begins and answers. */
#ifndef KL_CALLS_H
#define KL_CALLS_H

#include "errors.h"
#include "functions.h"
#include "live.h"
#include "papi.h"
#include "thread.h"

#include <stddef.h>

/* What each function does, by its name. */
#define KL_DEED(name, does) KL_##name = (does),
enum { KL_FUNCTIONS(KL_DEED) };

/* Begins each function of papi.h: the thread's outermost call enters, and leaves when the function
 * ends. */
#define CALL(name) \
    const int call_ __attribute__((cleanup(kl_call_ends), unused)) = kl_call_begins(KL_##name)

/* Where the part of the stack ends that the function has into which this is inlined, and what is
 * rarely so. */
#define KL_CALL_END __builtin_dwarf_cfa()
#define KL_RARELY(condition) __builtin_expect(!!(condition), 0)

/* calls.c: the calls of the calling thread that go on. Of the outermost one the end of its part of
 * the stack is kept, NULL if there is none: a handler of a signal may jump out of it. Of those that
 * go on, `changing` are of functions that change something: one that counts and begins in such a
 * function is that of a signal's handler, and is `interrupting`. Between a function's begin and the
 * tool's notice of it nothing but the library's own instructions is run. */
typedef struct {
    const void *end;
    int starts; /* one of them may have started or stopped a set */
    int changing, interrupting;
    /* How often cancellation is put off, and how it was before. */
    int uncancelled, cancelled_before;
} kl_outside;
extern _Thread_local kl_outside kl_calls
    __attribute__((tls_model("initial-exec"), visibility("hidden")));
static inline int kl_interrupts(void) { return kl_calls.interrupting > 0; }

/* The library's own code, by the section that c/build gives it. */
extern const char kl_first_byte[] __asm__("__start_kistalub_code")
    __attribute__((weak, visibility("hidden")));
extern const char kl_end_byte[] __asm__("__stop_kistalub_code")
    __attribute__((weak, visibility("hidden")));

void kl_call_leaves(void);
void kl_change_enters(void);
void kl_change_leaves(void);
/* Whether the outermost call was left by a jump. Then nothing of it is kept. */
int kl_is_left(const void *end, const void *returns_to);

/* Inlined, what the function does is known where it is compiled: one that counts looks at a word,
 * and calls nothing. */
static inline __attribute__((always_inline)) int kl_call_begins(int does) {
    if (does & KL_MAY_START) kl_calls.starts = 1;
    if (KL_RARELY(kl_calls.end) && !kl_is_left(KL_CALL_END, __builtin_return_address(0))) {
        if (!(does & KL_DOES_CHANGE) && kl_calls.changing) kl_calls.interrupting++;
    } else {
        kl_calls.end = KL_CALL_END;
        if (KL_RARELY(kl_is_live())) kl_live_enters();
    }
    if (does & KL_DOES_CHANGE) kl_change_enters();
    return does;
}

/* The call goes on until the tool knows that it is over: a handler that interrupts that is none of
 * the program's own instructions. */
static inline __attribute__((always_inline)) void kl_call_ends(const int *does) {
    if (*does & KL_DOES_CHANGE) kl_change_leaves();
    if (KL_RARELY(kl_calls.end != KL_CALL_END)) {
        if (!(*does & KL_DOES_CHANGE) && kl_calls.changing) kl_calls.interrupting--;
        return;
    }
    if (KL_RARELY(kl_is_live())) kl_call_leaves();
    kl_calls.end = NULL;
}

/* Ends each function of papi.h that answers a code: one below 0 is the thread's last error, and the
 * error handler is told of it. One that another function of the library calls does not, nor one
 * that is not of papi.h: the handler is the user's, and is called once a call and under no lock. */
#define RETURN(code) return kl_answer(code)
static inline __attribute__((always_inline)) int kl_answer(int code) {
    return KL_RARELY(code < PAPI_OK) && kl_calls.end == KL_CALL_END ? kl_refuse(code) : code;
}

/* The thread's state, or the function of papi.h ends with the code why there is none. */
#define HERE(t) \
    int code_; \
    thread_state *t = kl_current_thread(&code_); \
    if (!t) RETURN(code_)

/* The same of a function that asks for a set by its number: a thread that has ended has no state,
 * and `t` is NULL. */
#define HERE_OR_PAST(t) \
    int code_; \
    thread_state *t = kl_current_thread(&code_); \
    if (!t && !kl_is_past()) RETURN(code_)

/* calls.c: around a function or a handler of the user the thread leaves its outermost call, and
 * enters it again. A thread that the tool has stopped is in the library too. */
kl_outside kl_user_begins(void);
void kl_user_ends(kl_outside before);
kl_outside kl_stopped_begins(const void *end);
void kl_stopped_ends(kl_outside before);

#endif
