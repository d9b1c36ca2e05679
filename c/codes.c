/* The codes of native events. A code that the program sees is the process's: 0x40000000 and the
 * place of the event among those whose codes were asked for. The library of each thread numbers by
 * itself, and the two are matched by the event's name. */
#include "posix.h"
#include "codes.h"
#include "events.h"
#include "locks.h"
#include "papi.h"
#include "presets.h"
#include "thread.h"

#include <pthread.h>
#include <stdatomic.h>
#include <stdint.h>
#include <stdlib.h>
#include <string.h>

#define PLACE_MASK 0x3fffffffu
/* A native code that no library gives. */
#define UNKNOWN_CODE 0x7fffffffu
#define FIRST_ROOM 16

/* The names by their places, and a table of the places by the hashes of their names, each with 1
 * added. All under kl_lock. */
static struct { char **names; uint32_t count, room, *places, slots; } known;

static int is_native(uint32_t code) { return code >> 30 == 1; }

static uint32_t hash_of(const char *name) {
    uint32_t hash = 2166136261u;
    for (; *name; name++) hash = (hash ^ (unsigned char)*name) * 16777619u;
    return hash;
}

/* The slot of a name, or the free one where it belongs. */
static uint32_t slot_of(const char *name) {
    uint32_t slot = hash_of(name) & (known.slots - 1);
    while (known.places[slot] && strcmp(known.names[known.places[slot] - 1], name))
        slot = (slot + 1) & (known.slots - 1);
    return slot;
}

/* Twice as much room for names, and four slots for each. */
static int grow(void) {
    uint32_t room = known.room ? 2 * known.room : FIRST_ROOM;
    if (room > PLACE_MASK / 4) return 0;
    char **names = realloc(known.names, room * sizeof *names);
    if (!names) return 0;
    known.names = names;
    uint32_t *places = calloc((size_t)room * 4, sizeof *places);
    if (!places) return 0;
    free(known.places);
    known.places = places;
    known.slots = room * 4;
    known.room = room;
    for (uint32_t place = 0; place < known.count; place++)
        known.places[slot_of(known.names[place])] = place + 1;
    return 1;
}

/* The place of a name, which is known from now on. Under kl_lock. */
static int mention(const char *name, uint32_t *place) {
    if (known.count == known.room && !grow()) return PAPI_ENOMEM;
    uint32_t slot = slot_of(name);
    if (!known.places[slot]) {
        size_t size = strlen(name) + 1;
        char *copy = malloc(size);
        if (!copy) return PAPI_ENOMEM;
        memcpy(copy, name, size);
        known.names[known.count] = copy;
        known.places[slot] = ++known.count;
    }
    *place = known.places[slot] - 1;
    return PAPI_OK;
}

/* The name in a place, in NAME_ROOM bytes. */
static int name_in_place(uint32_t place, char *name) {
    pthread_mutex_lock(&kl_lock);
    int found = place < known.count;
    if (found) memcpy(name, known.names[place], strlen(known.names[place]) + 1);
    pthread_mutex_unlock(&kl_lock);
    return found;
}

void kl_forget_codes(void) {
    pthread_mutex_lock(&kl_lock);
    for (uint32_t place = 0; place < known.count; place++) free(known.names[place]);
    free(known.names);
    free(known.places);
    memset(&known, 0, sizeof known);
    pthread_mutex_unlock(&kl_lock);
}

void kl_drop_codes(thread_state *t) {
    const kl_code_map none = { NULL, NULL, 0, 0 };
    free(t->codes.inward);
    free(t->codes.outward);
    free(t->presets);
    t->codes = none;
    t->presets = NULL;
}

static uint32_t noted(const uint32_t *numbers, uint32_t count, uint32_t at) {
    return at < count ? numbers[at] : 0;
}

/* Notes a number, with 1 added. A signal's handler finds the numbers at each moment. */
int kl_note(uint32_t **numbers, uint32_t *count, uint32_t at, uint32_t number) {
    if (at >= *count) {
        uint32_t room = *count ? *count : FIRST_ROOM;
        while (room <= at) room *= 2;
        uint32_t *more = calloc(room, sizeof *more), *old = *numbers;
        if (!more) return PAPI_ENOMEM;
        if (*count) memcpy(more, old, *count * sizeof *more);
        *numbers = more;
        atomic_signal_fence(memory_order_seq_cst);
        *count = room;
        free(old);
    }
    (*numbers)[at] = number + 1;
    return PAPI_OK;
}

static int match(thread_state *t, uint32_t place, uint32_t own) {
    kl_code_map *c = &t->codes;
    int code = kl_note(&c->inward, &c->inward_count, place, own);
    return code == PAPI_OK ? kl_note(&c->outward, &c->outward_count, own, place) : code;
}

/* The code of the user event that stands for a preset, or the preset's own if there is none: the
 * event has the preset's name without PAPI_. */
static int preset_inward(thread_state *t, int code, const kl_preset *preset, uint32_t *own) {
    const char *name = preset->name + sizeof "PAPI_" - 1;
    uint32_t place = (uint32_t)code & PAPI_PRESET_AND_MASK;
    if (!t->presets) t->presets = calloc(PAPI_END_idx, sizeof *t->presets);
    if (!t->presets) return PAPI_ENOMEM;
    if (!t->presets[place]) {
        uint32_t found = 0;
        int answer =
            kistalub_name_to_code(&t->library, (const unsigned char *)name, strlen(name), &found);
        if (answer == PAPI_ENOMEM) return answer;
        t->presets[place] =
            answer == PAPI_OK && IS_USER_DEFINED((int)found) ? found : (uint32_t)code;
    }
    *own = t->presets[place];
    return PAPI_OK;
}

int kl_code_inward(thread_state *t, int code, uint32_t *own) {
    const kl_preset *preset = kl_preset_of(code);
    if (preset && !kl_is_modelled(preset)) return preset_inward(t, code, preset, own);
    char name[NAME_ROOM];
    uint32_t place = (uint32_t)code & PLACE_MASK;
    *own = (uint32_t)code;
    if (!is_native(*own)) return PAPI_OK;
    uint32_t found = noted(t->codes.inward, t->codes.inward_count, place);
    *own = found ? PAPI_NATIVE_MASK | (found - 1) : UNKNOWN_CODE;
    if (found || !name_in_place(place, name)) return PAPI_OK;
    int answer = kistalub_name_to_code(&t->library, (const unsigned char *)name, strlen(name), own);
    return answer == PAPI_OK ? match(t, place, *own & PLACE_MASK) : answer;
}

int kl_code_outward(thread_state *t, uint32_t own, int *code) {
    char name[NAME_ROOM];
    uint64_t length = 0;
    uint32_t place = 0;
    *code = (int)own;
    if (!is_native(own)) return PAPI_OK;
    uint32_t found = noted(t->codes.outward, t->codes.outward_count, own & PLACE_MASK);
    int answer = PAPI_OK;
    if (found) place = found - 1;
    else {
        answer =
            kistalub_code_to_name(&t->library, own, (unsigned char *)name, NAME_ROOM - 1, &length);
        answer = kl_ended(answer, name, NAME_ROOM - 1, length);
        pthread_mutex_lock(&kl_lock);
        if (answer == PAPI_OK) answer = mention(name, &place);
        pthread_mutex_unlock(&kl_lock);
        if (answer == PAPI_OK) answer = match(t, place, own & PLACE_MASK);
    }
    if (answer == PAPI_OK) *code = PAPI_NATIVE_MASK | (int)place;
    return answer;
}
