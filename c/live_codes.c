/* The codes of what the tool counts: the native events that an occurrence of each kind is of. They
 * are read once. */
/* The tool has them up to the amounts; a program that the library is linked into may have its
 * names. */
#define recorded_codes kl_recorded_codes
#define read_codes kl_read_codes
#define kind_names kl_kind_names
#include "posix.h"
#include "../tools/valgrind/kinds.h"
#include "environment.h"
#include "live_thread.h"
#include "papi.h"

#include <pthread.h>
#include <stdint.h>
#include <string.h>
#include <strings.h>

#include "../tools/valgrind/kinds.c"

#define PMU_ROOM 80

/* KISTALUB_CODES: the pmu of a component, a space, and its codes as the tool reads them, or nothing
 * for those of examples/recorded.unit. */
static const kind_codes *codes_told(const char *text) {
    static pthread_mutex_t lock = PTHREAD_MUTEX_INITIALIZER;
    static all_codes told;
    static int is_read, is_right;
    pthread_mutex_lock(&lock);
    if (!is_read) is_right = read_codes(text, told);
    is_read = 1;
    pthread_mutex_unlock(&lock);
    return is_right ? told : NULL;
}

const kind_codes *kl_codes_of(kistalub *library) {
    static const all_codes none;
    const char *text = kl_variable("KISTALUB_CODES"), *codes = text ? strchr(text, ' ') : NULL;
    char pmu[PMU_ROOM];
    uint64_t length = 0;
    if (!codes) return recorded_codes;
    int code = kistalub_component(library, 0, KISTALUB_COMPONENT_PMU, 0, (unsigned char *)pmu,
                                  sizeof pmu - 1, &length);
    if (code != PAPI_OK || length != (uint64_t)(codes - text) || strncasecmp(pmu, text, length))
        return none;
    const kind_codes *told = codes[1] ? codes_told(codes + 1) : recorded_codes;
    return told ? told : none;
}
