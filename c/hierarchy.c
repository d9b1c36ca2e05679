/* The caches of the modelled processor, as the environment names them: KISTALUB_CACHES has words
 * `NAME=SIZE,WAYS,LINE` for l1d, l1i, l2 and l3, and `NAME=ENTRIES,WAYS,PAGE` for dtlb and itlb,
 * with spaces between them. */
#include "posix.h"
#include "environment.h"
#include "machine.h"
#include "papi.h"

#include <ctype.h>
#include <errno.h>
#include <limits.h>
#include <stdio.h>
#include <stdlib.h>
#include <string.h>

#define NUMBERS 3

static const struct { const char *name; int level, place, type, is_buffer; } parts[] = {
    { "l1i", 0, 0, PAPI_MH_TYPE_INST, 0 }, { "l1d", 0, 1, PAPI_MH_TYPE_DATA, 0 },
    { "l2", 1, 0, PAPI_MH_TYPE_UNIFIED, 0 },
    { "l3", 2, 0, PAPI_MH_TYPE_UNIFIED, 0 }, { "itlb", 0, 0, PAPI_MH_TYPE_INST, 1 },
    { "dtlb", 0, 1, PAPI_MH_TYPE_DATA, 1 },
};
#define PARTS (sizeof parts / sizeof *parts)

/* Puts a part of three numbers, all above 0, in its place. */
static void take(PAPI_mh_info_t *into, size_t part, const int *numbers) {
    PAPI_mh_level_t *level = into->level + parts[part].level;
    int place = parts[part].place, size = numbers[0], ways = numbers[1], line = numbers[2];
    if (parts[part].is_buffer) {
        PAPI_mh_tlb_info_t buffer = { parts[part].type | PAPI_MH_TYPE_LRU, size, line, ways };
        level->tlb[place] = buffer;
        return;
    }
    PAPI_mh_cache_info_t cache = { parts[part].type | PAPI_MH_TYPE_WB | PAPI_MH_TYPE_LRU |
                                       PAPI_MH_TYPE_RW_ALLOC,
                                   size, line, size / line, ways };
    level->cache[place] = cache;
    if (into->levels <= parts[part].level) into->levels = parts[part].level + 1;
}

/* Reads three numbers with a comma after each but the last, up to the end of the word. */
static int read_numbers(const char *at, const char *end, int *numbers) {
    for (int i = 0; i < NUMBERS; i++) {
        char *next;
        errno = 0;
        if (at == end || !isdigit((unsigned char)*at)) return 0;
        long number = strtol(at, &next, 10);
        if (errno || number < 1 || number > INT_MAX || next > end) return 0;
        numbers[i] = (int)number;
        if (i + 1 < NUMBERS && (next == end || *next++ != ',')) return 0;
        at = next;
    }
    return at == end;
}

/* The part that a word names, with its numbers, or PARTS if it is faulty. */
static size_t read_word(const char *word, size_t length, int *numbers) {
    for (size_t part = 0; part < PARTS; part++) {
        size_t n = strlen(parts[part].name);
        if (length <= n || strncmp(word, parts[part].name, n) || word[n] != '=') continue;
        return read_numbers(word + n + 1, word + length, numbers) ? part : PARTS;
    }
    return PARTS;
}

/* Takes each word: the first one that is faulty ends it, and is given back with its length. */
static const char *take_words(PAPI_mh_info_t *into, size_t *length) {
    const char *text = kl_variable("KISTALUB_CACHES");
    for (; text && *text; text += *length) {
        int numbers[NUMBERS];
        text += strspn(text, " ");
        *length = strcspn(text, " ");
        if (*length == 0) break;
        size_t part = read_word(text, *length, numbers);
        if (part == PARTS) return text;
        take(into, part, numbers);
    }
    return NULL;
}

int kl_judge_hierarchy(void) {
    PAPI_mh_info_t unused = { 0 };
    size_t length;
    const char *faulty = take_words(&unused, &length);
    if (!faulty) return PAPI_OK;
    fprintf(stderr, "papi: KISTALUB_CACHES: not NAME=SIZE,WAYS,LINE: %.*s\n", (int)length, faulty);
    return PAPI_ESYS;
}

void kl_take_hierarchy(PAPI_mh_info_t *into) {
    size_t length;
    take_words(into, &length);
}
