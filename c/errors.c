/* Errors: their texts, the thread's last one, and the error handler. */
#include "posix.h"
#include "calls.h"
#include "errors.h"
#include "holds.h"
#include "papi.h"
#include "thread.h"

#include <errno.h>
#include <stdatomic.h>
#include <stdint.h>
#include <stdio.h>
#include <stdlib.h>
#include <string.h>

static const char *const messages[] = {
    "No error", "Invalid argument", "Insufficient memory", "A System/C library call failed",
    "Not supported by component",
    "Access to the counters was lost or interrupted",
    "Internal error, please send mail to the developers", "Event does not exist",
    "Event exists, but cannot be counted due to hardware resource limits",
    "EventSet is currently not running",
    "EventSet is currently counting", "No such EventSet available",
    "Event in argument is not a valid preset",
    "Hardware does not support performance counters", "Unknown error code",
    "Permission level does not permit operation",
    "PAPI hasn't been initialized yet", "Component Index isn't set", "Not supported",
    "Not implemented", "Buffer size exceeded",
    "EventSet domain is not supported for the operation", "Invalid or missing event attributes",
    "Too many events or attributes",
    "Bad combination of features", "Component containing event is disabled",
    "Delayed initialization component",
    "Event exists, but cannot be counted due to multiple passes required by hardware",
};

static _Thread_local int last_error = PAPI_OK;
/* The call of the program's handler that goes on: it is not called again. */
static _Thread_local kl_hold handling;
/* How much is said, and the program's handler, or NULL: the library's own. */
static struct {
    atomic_int level;
    PAPI_debug_handler_t _Atomic handler;
} debugging = { .level = PAPI_QUIET };

static const char *message_of(int code) {
    const int most = (int)(sizeof messages / sizeof *messages);
    return code > 0 || code <= -most ? NULL : messages[-code];
}

char *PAPI_strerror(int code) {
    CALL(PAPI_strerror);
    return (char *)(uintptr_t)message_of(code);
}

void PAPI_perror(const char *msg) {
    CALL(PAPI_perror);
    if (msg && *msg) fprintf(stderr, "%s: ", msg);
    fprintf(stderr, "%s\n", message_of(last_error));
}

/* The library's own handler: a line on standard error, unless it is to be quiet, and the end of the
 * program if that is asked for. */
static int own_handler(int code) {
    int asked = atomic_load(&debugging.level), system_error = errno;
    if (asked == PAPI_QUIET) return code;
    const char *message = message_of(code);
    fprintf(stderr, "PAPI Error: Error Code %d,%s", code, message ? message : "");
    if (code == PAPI_ESYS) fprintf(stderr, ": %s", strerror(system_error));
    fprintf(stderr, "\n");
    if (asked == PAPI_VERB_ESTOP) abort();
    return code;
}

/* The answer of the program's handler, which may jump out. */
static int call_handler(PAPI_debug_handler_t given, int code) {
    const kl_hold hold = KL_HOLD(1);
    if (handling.is_handler && (uintptr_t)handling.end > (uintptr_t)hold.end &&
        kl_goes_on_still(&handling))
        return code;
    kl_outside before = kl_user_begins();
    handling = hold;
    int answer = given(code);
    handling.is_handler = 0;
    kl_user_ends(before);
    return answer;
}

int kl_refuse(int code) {
    if (!message_of(code)) return code;
    last_error = code;
    PAPI_debug_handler_t given = atomic_load(&debugging.handler);
    return given ? call_handler(given, code) : own_handler(code);
}

int kl_get_debug(PAPI_debug_option_t *debug) {
    PAPI_debug_handler_t given = atomic_load(&debugging.handler);
    debug->level = atomic_load(&debugging.level);
    debug->handler = given ? given : own_handler;
    return PAPI_OK;
}

int kl_set_debug(const PAPI_debug_option_t *debug) {
    if (debug->level != PAPI_QUIET && debug->level != PAPI_VERB_ECONT &&
        debug->level != PAPI_VERB_ESTOP)
        return PAPI_EINVAL;
    atomic_store(&debugging.level, debug->level);
    atomic_store(&debugging.handler, debug->handler == own_handler ? NULL : debug->handler);
    return PAPI_OK;
}

int PAPI_set_debug(int asked) {
    CALL(PAPI_set_debug);
    PAPI_debug_option_t debug;
    kl_get_debug(&debug);
    debug.level = asked;
    RETURN(kl_set_debug(&debug));
}
