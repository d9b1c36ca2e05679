/* Reads the common line at fixed places from both ends, without a branch, and finds newlines 64
 * bytes at a time. If a machine has no SSE2, no line is common, and newlines are found byte by
 * byte. */
#include <stddef.h>
#include <stdint.h>
#include <string.h>
#ifdef __SSE2__
#include <emmintrin.h>
#endif

#define INLINE static inline __attribute__((always_inline))

struct occurrence {
    unsigned comp, select, umask, amount;
    int kernel;
    uint64_t pc, stamp;
};

/* Common lines are read as far as this before and after themselves. */
enum { MARGIN = 64 };

#ifdef __SSE2__

INLINE __m128i all(int byte) {
    return _mm_set1_epi8((char)byte);
}

INLINE __m128i load(const void *at) {
    return _mm_loadu_si128(at);
}

INLINE unsigned bits(__m128i v) {
    return (unsigned)_mm_movemask_epi8(v);
}

INLINE __m128i at_most(__m128i v, int most) {
    return _mm_cmpeq_epi8(_mm_min_epu8(v, all(most)), v);
}

/* The newlines among 64 bytes, a bit each. */
INLINE uint64_t newlines_of(const unsigned char *p) {
    uint64_t found = 0;
    for (int i = 0; i < 4; i++)
        found |= (uint64_t)bits(_mm_cmpeq_epi8(load(p + 16 * i), all('\n'))) << 16 * i;
    return found;
}

/* The values of 16 hexadecimal digits, and which of the bytes are digits. */
INLINE __m128i nibbles(__m128i text, __m128i *are_digits) {
    __m128i letters = at_most(_mm_sub_epi8(_mm_or_si128(text, all(0x20)), all('a')), 5);
    *are_digits = _mm_or_si128(at_most(_mm_sub_epi8(text, all('0')), 9), letters);
    return _mm_add_epi8(_mm_and_si128(text, all(15)), _mm_and_si128(letters, all(9)));
}

/* A mask of the last n of 16 bytes, for n below 32. */
INLINE __m128i last_bytes(size_t n) {
    static const unsigned char window[48] = {
        [16] = 255, 255, 255, 255, 255, 255, 255, 255, 255, 255, 255, 255, 255, 255, 255, 255,
        255, 255, 255, 255, 255, 255, 255, 255, 255, 255, 255, 255, 255, 255, 255, 255,
    };
    return load(window + n);
}

/* The functions below return 0 if all is good, and else another number: faults are gathered by `|`,
 * without a branch on each. */

/* The n hexadecimal digits before `end`: 1 to 16. */
INLINE unsigned hexadecimal_before(const unsigned char *end, size_t n, uint64_t *value) {
    __m128i are_digits, keep = last_bytes(n & 31),
                        v = _mm_and_si128(nibbles(load(end - 16), &are_digits), keep);
    v = _mm_and_si128(_mm_or_si128(_mm_slli_epi16(v, 4), _mm_srli_epi16(v, 8)),
                      _mm_set1_epi16(255));
    *value = __builtin_bswap64((uint64_t)_mm_cvtsi128_si64(_mm_packus_epi16(v, v)));
    return (unsigned)(n - 1) >> 4 | bits(_mm_andnot_si128(are_digits, keep));
}

/* The n decimal digits before `end`: 1 to 10, without leading zeros. */
INLINE unsigned decimal_before(const unsigned char *end, size_t n, uint64_t *value) {
    __m128i text = _mm_xor_si128(load(end - 16), all('0')), keep = last_bytes(n & 31),
            v = _mm_and_si128(text, keep);
    unsigned others = bits(_mm_andnot_si128(at_most(text, 9), keep));
    v = _mm_add_epi16(_mm_mullo_epi16(_mm_and_si128(v, _mm_set1_epi16(255)), _mm_set1_epi16(10)),
                      _mm_srli_epi16(v, 8));
    v = _mm_madd_epi16(v, _mm_set1_epi32(1 << 16 | 100));
    v = _mm_madd_epi16(_mm_packs_epi32(v, v), _mm_set1_epi32(1 << 16 | 10000));
    uint64_t halves = (uint64_t)_mm_cvtsi128_si64(v);
    *value = (halves & 0xffffffff) * 100000000 + (halves >> 32);
    return others | (n - 1 > 9) | ((n != 1) & (end[-(ptrdiff_t)n] == '0'));
}

/* The 1 to 3 decimal digits at p up to a space, from 1 to 255 without leading zeros, and how many
 * they are. */
INLINE unsigned amount_at(const unsigned char *p, unsigned *amount, size_t *length) {
    uint32_t text;
    memcpy(&text, p, 4);
    uint32_t zero_at_space = text ^ 0x20202020u;
    uint32_t spaces = (zero_at_space - 0x01010101u) & ~zero_at_space & 0x80808080u;
    unsigned width = (unsigned)__builtin_ctz(spaces | 0x80000000u) & 0x18;
    uint32_t keep = (1u << width) - 1, v = (text ^ 0x30303030u) & keep;
    unsigned faults =
        (((v + 0x76767676u) | v) & 0x80808080u & keep) | (spaces == 0) | ((v & 255) == 0);
    v <<= 24 - width;
    *amount = (v & 255) * 100 + (v >> 8 & 255) * 10 + (v >> 16);
    *length = width / 8;
    return faults | (*amount & ~255u);
}

/* The component, select code, umask and mode of a line, with a space after each. p is at the
 * component's last digit. */
INLINE unsigned head_at(const unsigned char *p, unsigned tens, struct occurrence *o) {
    __m128i are_digits, head = load(p);
    uint64_t v = (uint64_t)_mm_cvtsi128_si64(nibbles(head, &are_digits));
    unsigned unit = (unsigned)v & 255, mode = p[8];
    o->kernel = mode == 'k';
    o->comp = unit + 10 * tens;
    o->select = (unsigned)(v >> 12 & 0xf0) | (unsigned)(v >> 24 & 15);
    o->umask = (unsigned)(v >> 36 & 0xf0) | (unsigned)(v >> 48 & 15);
    unsigned spaces = bits(_mm_cmpeq_epi8(head, all(' ')));
    return ((spaces & 0x292) ^ 0x292) | ((bits(are_digits) & 0x6d) ^ 0x6d) |
           (9 - 4 * tens - unit) >> 31 | (mode ^ ('u' - (unsigned)o->kernel * ('u' - 'k')));
}

/* Whether the line from p to end, with or without a carriage return, is a common one, which has an
 * occurrence and no fault. */
INLINE int common_line(const unsigned char *p, const unsigned char *end, int version,
                       struct occurrence *o) {
    size_t length;
    end -= end[-1] == '\r';
    unsigned tens = p[1] != ' ';
    unsigned faults = tens & (*p != '1');
    p += tens;
    faults |= head_at(p, tens, o);
    faults |= amount_at(p + 10, &o->amount, &length);
    p += 11 + length;
    if (version == 2) {
        unsigned spaces = bits(_mm_cmpeq_epi8(load(end - 16), all(' ')));
        length = (size_t)__builtin_clz(spaces | 1) - 16;
        faults |= decimal_before(end, length, &o->stamp);
        faults |= o->stamp > 4294967294;
        end -= length + 1;
        faults |= *end ^ ' ';
    }
    faults |= hexadecimal_before(end, (size_t)(end - p), &o->pc);
    return faults == 0;
}

#else

INLINE uint64_t newlines_of(const unsigned char *p) {
    uint64_t found = 0;
    for (int i = 0; i < 64; i++) found |= (uint64_t)(p[i] == '\n') << i;
    return found;
}

INLINE int common_line(const unsigned char *p, const unsigned char *end, int version,
                       struct occurrence *o) {
    (void)p, (void)end, (void)version, (void)o;
    return 0;
}

#endif
