/* How fast common lines can be read: sketch KIND STREAM. KIND is `nothing` or `three`; it prints
 * what `count` prints. It ends at each line that is not of version 1, with a component of one digit
 * and a newline alone; README.md has what else it leaves out. The newlines of a piece are found
 * before its lines are read, so that no line waits for the one before it. A line is read at fixed
 * places from both ends, by two vectors of 16 bytes (SSE4.1), with one branch. */
#include <fcntl.h>
#include <immintrin.h>
#include <stdint.h>
#include <stdio.h>
#include <string.h>
#include <unistd.h>

#define INLINE static inline __attribute__((always_inline))

enum { PIECE = 65536, MARGIN = 64, MOST_KEPT = 128, WORDS = (PIECE + MOST_KEPT) / 64 + 1 };

struct occurrence {
    unsigned select, umask, kernel, amount;
};

/* Masks of the last m of 16 bytes. */
static uint8_t masks[32][16];

INLINE __m128i nibbles(__m128i text, __m128i *are_digits) {
    __m128i decimal = _mm_sub_epi8(text, _mm_set1_epi8('0'));
    __m128i letter = _mm_sub_epi8(_mm_or_si128(text, _mm_set1_epi8(0x20)), _mm_set1_epi8('a' - 10));
    __m128i is_decimal = _mm_cmpeq_epi8(_mm_min_epu8(decimal, _mm_set1_epi8(9)), decimal);
    __m128i low = _mm_cmpeq_epi8(_mm_max_epu8(letter, _mm_set1_epi8(10)), letter),
            high = _mm_cmpeq_epi8(_mm_min_epu8(letter, _mm_set1_epi8(15)), letter);
    *are_digits = _mm_or_si128(is_decimal, _mm_and_si128(low, high));
    return _mm_blendv_epi8(letter, decimal, is_decimal);
}

/* Whether the line from p to e is a common one. */
INLINE int line(const uint8_t *p, const uint8_t *e, struct occurrence *o, uint64_t *pc) {
    const __m128i spaces = _mm_setr_epi8(0, ' ', 0, 0, ' ', 0, 0, ' ', 0, ' ', 0, 0, 0, 0, 0, 0);
    const __m128i places = _mm_setr_epi8(2, 3, 5, 6, 0, -1, -1, -1, -1, -1, -1, -1, -1, -1, -1, -1);
    __m128i head = _mm_loadu_si128((const __m128i *)p), are_digits;
    unsigned are_spaces = (unsigned)_mm_movemask_epi8(_mm_cmpeq_epi8(head, spaces));
    __m128i values = nibbles(head, &are_digits);
    uint64_t packed = (uint64_t)_mm_cvtsi128_si64(
        _mm_maddubs_epi16(_mm_shuffle_epi8(values, places), _mm_set1_epi16(0x0110)));
    unsigned faults = ((are_spaces & 0x292u) ^ 0x292u) |
                      (((unsigned)_mm_movemask_epi8(are_digits) & 0x6du) ^ 0x6du);
    unsigned mode = p[8];
    faults |= ((mode | 0x1e) ^ 0x7f) | ((mode ^ 'u') & (mode ^ 'k')); /* (not exact) */
    uint32_t text;
    memcpy(&text, p + 10, 4);
    uint32_t zero_at_space = text ^ 0x20202020u,
             found = (zero_at_space - 0x01010101u) & ~zero_at_space & 0x80808080u;
    unsigned width = (unsigned)__builtin_ctz(found | 0x80000000u) & 0x18;
    uint32_t keep = (1u << width) - 1, v = (text - 0x30303030u) & keep;
    faults |= ((v + 0x76767676u) & 0x80808080u & keep) | (width == 0) | ((text & 0xff) == '0');
    v <<= 24 - width;
    o->amount = (v & 0xff) * 100 + (v >> 8 & 0xff) * 10 + (v >> 16 & 0xff);
    unsigned m = (unsigned)(e - p) - 11 - (width >> 3);
    faults |= (o->amount > 255) | ((m - 1) & ~15u);
    __m128i last = _mm_loadu_si128((const __m128i *)masks[m & 31]),
            tail = nibbles(_mm_loadu_si128((const __m128i *)(e - 16)), &are_digits);
    faults |= !_mm_testc_si128(are_digits, last);
    __m128i pairs = _mm_maddubs_epi16(_mm_and_si128(tail, last), _mm_set1_epi16(0x0110));
    *pc = __builtin_bswap64((uint64_t)_mm_cvtsi128_si64(_mm_packus_epi16(pairs, pairs)));
    o->select = packed & 0xff;
    o->umask = packed >> 16 & 0xff;
    o->kernel = mode == 'k';
    return !__builtin_expect(faults, 0);
}

static uint8_t store[MARGIN + 64 * WORDS + MARGIN];
static uint64_t newlines[WORDS];
static uint64_t lines, totals[3];
static volatile uint64_t pcs; /* that the program counters are used */

INLINE void find_newlines(const uint8_t *bytes, size_t held) {
    size_t words = (held + 63) / 64;
    for (size_t k = 0; k < words; k++) {
        newlines[k] = 0;
        for (size_t i = 0; i < 4; i++)
            newlines[k] |= (uint64_t)(unsigned)_mm_movemask_epi8(_mm_cmpeq_epi8(
                               _mm_loadu_si128((const __m128i *)(bytes + 64 * k + 16 * i)),
                               _mm_set1_epi8('\n')))
                           << 16 * i;
    }
    if (held & 63) newlines[words - 1] &= ((uint64_t)1 << (held & 63)) - 1;
}

INLINE void count(const struct occurrence *o) {
    unsigned amount = o->amount & (o->kernel - 1);
    totals[0] += amount & (0u - (o->select == 0xc0));
    totals[1] += amount & (0u - (o->select == 0x3c));
    totals[2] += amount & (0u - ((o->select == 0xc4) & o->umask));
}

/* Reads the whole lines of a piece. Returns where the rest begins, or -1 at another line. */
INLINE ssize_t read_lines(const uint8_t *bytes, size_t held, int is_three) {
    size_t at = 0, words = (held + 63) / 64;
    uint64_t all = 0;
    for (size_t k = 0; k < words; k++)
        for (uint64_t left = newlines[k]; left; left &= left - 1) {
            size_t end = 64 * k + (size_t)__builtin_ctzll(left);
            struct occurrence o;
            uint64_t pc;
            if (!line(bytes + at, bytes + end, &o, &pc)) return -1;
            at = end + 1;
            lines++;
            all ^= pc;
            if (is_three) count(&o);
        }
    pcs ^= all;
    return (ssize_t)at;
}

INLINE int read_all(int file, int is_three) {
    uint8_t *bytes = store + MARGIN;
    size_t held = 0;
    ssize_t got;
    while ((got = read(file, bytes + held, PIECE)) > 0) {
        held += (size_t)got;
        find_newlines(bytes, held);
        ssize_t at = read_lines(bytes, held, is_three);
        if (at < 0 || held - (size_t)at > MOST_KEPT) return 0;
        held -= (size_t)at;
        memmove(bytes, bytes + at, held);
    }
    return got == 0 && held == 0;
}

int main(int argc, char **argv) {
    int is_three = argc == 3 && strcmp(argv[1], "three") == 0,
        file = argc == 3 ? open(argv[2], O_RDONLY) : -1;
    if (file < 0) return 2;
    for (size_t m = 0; m < 32; m++) memset(masks[m] + (m < 16 ? 16 - m : 0), 255, m < 16 ? m : 16);
    if (!(is_three ? read_all(file, 1) : read_all(file, 0))) return 2;
    printf("%llu 0\n", (unsigned long long)lines);
    if (is_three)
        printf("%llu %llu %llu\n", (unsigned long long)totals[0], (unsigned long long)totals[1],
               (unsigned long long)totals[2]);
    return fflush(stdout) == 0 ? 0 : 5;
}
