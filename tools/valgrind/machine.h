/* What a program's accesses and branches meet: caches and translation buffers that keep what was
 * used last, and a predictor of branches. */
#ifndef MACHINE_H
#define MACHINE_H

#include <stdbool.h>
#include <stddef.h>
#include <stdint.h>

#define MOST_WAYS 128
#define MOST_LINES (1u << 24)
#define MOST_PREDICTOR_BITS 24

/* The sizes of a cache: lines in all, lines in a set, bytes in a line. Without lines it is left
 * out. */
typedef struct { uint64_t lines, ways, bytes_of_line; } shape;

/* Lines, or pages, in sets of `ways`. */
typedef struct {
    uint64_t *tags;  /* set by set: lines by their addresses, in the order of their use; or NULL */
    uint64_t *known; /* of pages, by set: bits of the sets that know lines of its first page */
    uint64_t last_set;
    unsigned ways, line_bits;
} cache;

/* A line is known if its set used it last, and so did that of its page: using it again changes
 * nothing. So code needs only look at the first tag of the set: if that line is not known, it has
 * this bit too. A set of lines has the bit of its number modulo 64 in `known`. */
#define IS_UNKNOWN (UINT64_C(1) << 63)

/* Gshare: counters of two bits, found by the branch's address and what the branches before it
 * did. */
typedef struct { uint64_t history, last; uint8_t *counters; } predictor;

/* The next state of a counter, by 4 * taken + its state. */
extern const uint8_t next_state[8];

/* Whether this is a cache's shape: powers of two, within the limits. */
bool shape_is_right(const shape *s);

/* The bytes that a cache needs, and the cache made empty in as many bytes at an address that is a
 * multiple of 64. */
size_t cache_room(const shape *s);
void cache_begins(cache *c, const shape *s, void *room);

static inline uint64_t line_of_address(const cache *c, uint64_t address) {
    return (address & ~IS_UNKNOWN) >> c->line_bits << c->line_bits;
}

/* That of the last byte of an access. */
static inline uint64_t last_line(const cache *c, uint64_t address, uint64_t size) {
    return line_of_address(c, address + (size ? size - 1 : 0));
}

static inline uint64_t set_number(const cache *c, uint64_t line) {
    return line >> c->line_bits & c->last_set;
}

static inline uint64_t *set_of(const cache *c, uint64_t line) {
    return c->tags + set_number(c, line) * c->ways;
}

static inline bool line_misses(cache *c, uint64_t line) {
    uint64_t *set = set_of(c, line), before = set[0] & ~IS_UNKNOWN;
    set[0] = line;
    if (before == line) return false;
    for (unsigned way = 1; way < c->ways; way++) {
        uint64_t now = set[way];
        set[way] = before;
        if (now == line) return false;
        before = now;
    }
    return true;
}

/* Uses the lines of `size` bytes from an address on, and says whether one of them was not there. */
static inline bool cache_misses(cache *c, uint64_t address, uint64_t size) {
    uint64_t line = line_of_address(c, address), last = last_line(c, address, size);
    bool misses = line_misses(c, line);
    while (line < last)
        if (line_misses(c, line += UINT64_C(1) << c->line_bits)) misses = true;
    return misses;
}

/* The same of pages, and of lines in them: which lines are known is kept. The other one of the two
 * may be left out. */
bool pages_miss(cache *pages, const cache *lines, uint64_t address, uint64_t size);
bool lines_miss(cache *lines, const cache *pages, uint64_t address, uint64_t size);

/* Makes a predictor with 2^bits counters, a byte for each, weakly not taken. */
void predictor_begins(predictor *p, unsigned bits, uint8_t *counters);

/* What was predicted of a branch that then was taken or not: whether that was wrong. */
bool predictor_errs(predictor *p, uint64_t address, bool taken);

#endif
