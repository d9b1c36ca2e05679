/* The functions of papi.h that readings.c calls, by hand: a stream and event sets for each thread,
 * and of the events three. */
#include "papi.h"
#include "read_stream.h"
#include <fcntl.h>
#include <stdlib.h>

enum { MOST_SETS = 64, EVENTS = 3 };

static const struct {
    const char *name;
    unsigned select, umask;
} known[EVENTS] = {{"INST_RETIRED", 0xc0, 0}, {"CYCLES", 0x3c, 0}, {"BR_INST", 0xc4, 1}};

struct set {
    int is_made, count, events[EVENTS];
    uint64_t totals[EVENTS];
};

struct thread {
    uint64_t step;
    struct set *running, sets[MOST_SETS];
    struct reader reader;
};

static _Thread_local struct thread *own;

int PAPI_library_init(int version) {
    const char *stream = getenv("KISTALUB_STREAM"), *step = getenv("KISTALUB_STEP");
    int file = stream ? open(stream, O_RDONLY) : -1;
    own = calloc(1, sizeof *own);
    if (own == NULL) return PAPI_ENOMEM;
    if (file < 0 || begin_reading(&own->reader, file) < 0) return PAPI_ESYS;
    own->step = step ? strtoull(step, NULL, 10) : 0;
    return version;
}

static struct set *set_of(int set) {
    return own && set >= 0 && set < MOST_SETS && own->sets[set].is_made ? &own->sets[set] : NULL;
}

int PAPI_create_eventset(int *set) {
    for (int i = 0; i < MOST_SETS; i++)
        if (!own->sets[i].is_made) {
            own->sets[i].is_made = 1;
            *set = i;
            return PAPI_OK;
        }
    return PAPI_ECOUNT;
}

int PAPI_add_named_event(int set, const char *name) {
    struct set *s = set_of(set);
    if (s == NULL) return PAPI_ENOEVST;
    for (int i = 0; i < EVENTS; i++)
        if (s->count < EVENTS && strcmp(known[i].name, name) == 0) {
            s->events[s->count++] = i;
            return PAPI_OK;
        }
    return PAPI_ENOEVNT;
}

int PAPI_start(int set) {
    struct set *s = set_of(set);
    if (s == NULL || own->running) return s ? PAPI_EISRUN : PAPI_ENOEVST;
    memset(s->totals, 0, sizeof s->totals);
    own->running = s;
    return PAPI_OK;
}

INLINE void count(void *to, const struct occurrence *o) {
    struct set *s = ((struct thread *)to)->running;
    unsigned counts = (o->comp == 0) & !o->kernel;
    if (s == NULL) return;
    for (int i = 0; i < EVENTS; i++)
        s->totals[i] += o->amount & (0u - (counts & (o->select == known[i].select) &
                                           ((o->umask & known[i].umask) == known[i].umask)));
}

int PAPI_read(int set, long long *values) {
    struct set *s = set_of(set);
    if (s == NULL || values == NULL) return s ? PAPI_EINVAL : PAPI_ENOEVST;
    if (own->step && consume(&own->reader, own->step, count, own) < 0) return PAPI_ESYS;
    for (int i = 0; i < s->count; i++) values[i] = (long long)s->totals[s->events[i]];
    return PAPI_OK;
}

int PAPI_stop(int set, long long *values) {
    if (set_of(set) == NULL || own->running != set_of(set))
        return set_of(set) ? PAPI_ENOTRUN : PAPI_ENOEVST;
    int code = PAPI_read(set, values);
    own->running = NULL;
    return code;
}

void PAPI_shutdown(void) {
    free(own);
    own = NULL;
}
