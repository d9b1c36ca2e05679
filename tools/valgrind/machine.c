#include "machine.h"

#define NO_LINE UINT64_MAX
#define BITS 64
#define WEAKLY_NOT_TAKEN 1

const uint8_t next_state[8] = {0, 0, 1, 2, 1, 2, 3, 3};

static bool is_power_of_two(uint64_t number) { return number && !(number & (number - 1)); }

static unsigned bits_of(uint64_t power) {
    unsigned bits = 0;
    while (power >>= 1) bits++;
    return bits;
}

bool shape_is_right(const shape *s) {
    if (!is_power_of_two(s->bytes_of_line) || s->ways < 1 || s->ways > MOST_WAYS ||
        s->lines > MOST_LINES || s->lines % s->ways)
        return false;
    return is_power_of_two(s->lines / s->ways);
}

size_t cache_room(const shape *s) {
    return s->lines ? (s->lines + s->lines / s->ways) * sizeof(uint64_t) : 0;
}

void cache_begins(cache *c, const shape *s, void *room) {
    if (!s->lines) {
        c->tags = c->known = NULL;
        return;
    }
    uint64_t sets = s->lines / s->ways;
    c->tags = room;
    c->known = c->tags + s->lines;
    for (uint64_t i = 0; i < s->lines; i++) c->tags[i] = NO_LINE;
    for (uint64_t i = 0; i < sets; i++) c->known[i] = 0;
    c->last_set = sets - 1;
    c->ways = (unsigned)s->ways;
    c->line_bits = bits_of(s->bytes_of_line);
}

/* Another page is to be what its set used last: no line of the one before is known any more. */
static void forget_lines(const cache *pages, const cache *lines, uint64_t page) {
    uint64_t *known = pages->known + set_number(pages, page), before = *set_of(pages, page);
    for (; *known; *known &= *known - 1) {
        uint64_t number = (uint64_t)__builtin_ctzll(*known);
        for (; number <= lines->last_set; number += BITS) {
            uint64_t *first = lines->tags + number * lines->ways;
            if (*first >> pages->line_bits == before >> pages->line_bits) *first |= IS_UNKNOWN;
        }
    }
}

bool pages_miss(cache *pages, const cache *lines, uint64_t address, uint64_t size) {
    uint64_t page = line_of_address(pages, address), last = last_line(pages, address, size);
    bool misses = false;
    for (;; page += UINT64_C(1) << pages->line_bits) {
        bool is_other = *set_of(pages, page) != page;
        if (is_other && lines->tags) forget_lines(pages, lines, page);
        if (is_other && line_misses(pages, page)) misses = true;
        if (page >= last) return misses;
    }
}

/* The line was used last. */
static void know_line(const cache *pages, const cache *lines, uint64_t line) {
    uint64_t page = line_of_address(pages, line), *known = pages->known + set_number(pages, page);
    if (*set_of(pages, page) == page) *known |= UINT64_C(1) << set_number(lines, line) % BITS;
    else *set_of(lines, line) |= IS_UNKNOWN;
}

bool lines_miss(cache *lines, const cache *pages, uint64_t address, uint64_t size) {
    uint64_t line = line_of_address(lines, address), last = last_line(lines, address, size);
    bool misses = false;
    for (;; line += UINT64_C(1) << lines->line_bits) {
        if (line_misses(lines, line)) misses = true;
        if (pages->tags) know_line(pages, lines, line);
        if (line >= last) return misses;
    }
}

void predictor_begins(predictor *p, unsigned bits, uint8_t *counters) {
    p->counters = counters;
    p->last = ((uint64_t)1 << bits) - 1;
    p->history = 0;
    for (uint64_t i = 0; i <= p->last; i++) counters[i] = WEAKLY_NOT_TAKEN;
}

bool predictor_errs(predictor *p, uint64_t address, bool taken) {
    uint8_t *counter = p->counters + ((address ^ p->history) & p->last), before = *counter;
    *counter = next_state[4 * taken + before];
    p->history = (p->history << 1 | taken) & p->last;
    return (before >> 1) != taken;
}
