/* Errors: the last one, their texts, and the error handler. */
#include "papi.h"
#include "wanted.h"
#include <string.h>
#include <sys/wait.h>
#include <unistd.h>

static int seen, inside;

/* A handler that makes calls itself, and turns one code into another. */
static int handler(int code) {
    seen = code;
    inside = PAPI_num_events(0) == PAPI_ENOINIT;
    return code == PAPI_EINVAL ? -100 : code;
}

/* What calls have left below on the stack is something else now. */
static __attribute__((noinline)) void fill_stack(void) {
    volatile char below[4096];
    for (size_t i = 0; i < sizeof below; i++) below[i] = 'x';
}

static void aborted(int signal) {
    (void)signal;
    _exit(3);
}

/* PAPI_VERB_ESTOP ends the program at the first error, by abort(). */
static void stops(void) {
    int status;
    pid_t child = fork();
    if (child == 0) {
        signal(SIGABRT, aborted);
        WANT(PAPI_set_debug(PAPI_VERB_ESTOP), PAPI_OK);
        PAPI_num_events(7);
        _exit(0);
    }
    WANT(waitpid(child, &status, 0), child);
    WANT(WIFEXITED(status) && WEXITSTATUS(status) == 3, 1);
}

int main(void) {
    PAPI_option_t option;
    int set = 7;
    PAPI_perror(NULL);
    stops();
    WANT(PAPI_start(0), PAPI_ENOINIT);
    PAPI_perror("no library");
    PAPI_perror("");
    PAPI_perror(NULL);
    WANT(PAPI_library_init(PAPI_VER_CURRENT), PAPI_VER_CURRENT);
    WANT(PAPI_create_eventset(&set), PAPI_EINVAL);
    PAPI_perror("a set that is there");
    WANT(PAPI_num_components(), 2);
    PAPI_perror("and still");
    for (int code = 0; code >= PAPI_EMULPASS; code--)
        fprintf(stderr, "%d %s\n", code, PAPI_strerror(code));
    WANT(PAPI_strerror(PAPI_EMULPASS - 1) == NULL, 1);
    WANT(PAPI_strerror(1) == NULL, 1);

    /* each error has a line of its own, and what is not one has none */
    WANT(PAPI_set_debug(7), PAPI_EINVAL);
    WANT(PAPI_set_debug(PAPI_VERB_ECONT), PAPI_OK);
    WANT(PAPI_num_events(7), PAPI_ENOEVST);
    WANT(PAPI_num_components(), 2);
    WANT(PAPI_get_opt(PAPI_DEBUG, &option), PAPI_OK);
    WANT(option.debug.level, PAPI_VERB_ECONT);
    WANT(option.debug.handler(PAPI_ENOCMP), PAPI_ENOCMP);
    WANT(PAPI_set_debug(PAPI_QUIET), PAPI_OK);
    WANT(PAPI_num_events(7), PAPI_ENOEVST);

    /* what a handler gives back is what the call answers */
    WANT(PAPI_set_opt(PAPI_DEBUG, NULL), PAPI_EINVAL);
    option.debug.level = PAPI_QUIET;
    option.debug.handler = handler;
    WANT(PAPI_set_opt(PAPI_DEBUG, &option), PAPI_OK);
    WANT(PAPI_num_events(7), PAPI_ENOEVST);
    WANT(seen, PAPI_ENOEVST);
    WANT(inside, 0);
    WANT(PAPI_create_eventset(&set), -100);
    /* and it stays while the level changes */
    fill_stack();
    WANT(PAPI_set_debug(PAPI_VERB_ECONT), PAPI_OK);
    WANT(PAPI_num_components(), 2);
    WANT(PAPI_create_eventset(&set), -100);
    WANT(PAPI_get_opt(PAPI_DEBUG, &option), PAPI_OK);
    WANT(option.debug.handler == handler, 1);
    PAPI_shutdown();
    WANT(PAPI_reset(0), PAPI_ENOINIT);
    WANT(inside, 1);
    return 0;
}
