/* Reads a stream: cuts it into lines, checks every field of every line, and hands each occurrence
 * on. A line that is not a common one is read field by field. */
#include "common_line.h"
#include <stdio.h>
#include <unistd.h>

enum {
    PIECE = 65536,
    LONGEST_LINE = 128,
    LARGEST_STREAM = 67108864,
    WORDS = (LONGEST_LINE + PIECE + 63) / 64
};

struct reader {
    int file, version, ended;
    uint64_t line;      /* the number of the line before the next one */
    uint64_t passed;    /* the bytes before those that are held */
    uint64_t consumed;  /* occurrences so far */
    int64_t last_stamp; /* -1 before the first occurrence */
    size_t at, held;    /* the place of the next line, and the end of what is held */
    /* The newlines of what is held, 64 bytes a word; those of the lines before are taken away. */
    size_t word, words;
    uint64_t newlines[WORDS];
    unsigned char margin[MARGIN], bytes[64 * WORDS + MARGIN];
};

/* The value of a hexadecimal digit and 1 more, or 0. */
static const unsigned char digits[256] = {
    ['0'] = 1,  ['1'] = 2,  ['2'] = 3,  ['3'] = 4,  ['4'] = 5,  ['5'] = 6,  ['6'] = 7,  ['7'] = 8,
    ['8'] = 9,  ['9'] = 10, ['a'] = 11, ['b'] = 12, ['c'] = 13, ['d'] = 14, ['e'] = 15, ['f'] = 16,
    ['A'] = 11, ['B'] = 12, ['C'] = 13, ['D'] = 14, ['E'] = 15, ['F'] = 16,
};

INLINE int hex(unsigned char c) {
    return digits[c] - 1;
}

/* A decimal number of at most `most` digits without leading zeros. Goes past it; -1 if there is
 * none. */
INLINE int64_t decimal(const unsigned char **at, const unsigned char *end, int most) {
    const unsigned char *p = *at, *first = p;
    int64_t n = 0;
    while (p < end && *p >= '0' && *p <= '9' && p - first <= most) n = n * 10 + (*p++ - '0');
    if (p == first || p - first > most || (p - first > 1 && *first == '0')) return -1;
    *at = p;
    return n;
}

/* Goes past a space, if there is one. */
INLINE int space(const unsigned char **at, const unsigned char *end) {
    if (*at == end || **at != ' ') return 0;
    *at += 1;
    return 1;
}

/* Two hexadecimal digits and a space; -1 if there are none. */
INLINE int byte(const unsigned char **at, const unsigned char *end) {
    const unsigned char *p = *at;
    if (end - p < 3 || p[2] != ' ') return -1;
    int high = hex(p[0]), low = hex(p[1]);
    if (high < 0 || low < 0) return -1;
    *at = p + 3;
    return high * 16 + low;
}

/* 1 to 16 hexadecimal digits up to a space or the end. */
INLINE int counter(const unsigned char **at, const unsigned char *end, uint64_t *pc) {
    const unsigned char *p = *at;
    uint64_t n = 0;
    for (; p < end && *p != ' '; p++) {
        int digit = hex(*p);
        if (digit < 0) return 0;
        n = n * 16 + (unsigned)digit;
    }
    if (p == *at || p - *at > 16) return 0;
    *at = p;
    *pc = n;
    return 1;
}

INLINE int fields(const unsigned char *p, const unsigned char *end, int version,
                  struct occurrence *o) {
    int64_t comp = decimal(&p, end, 2);
    if (comp < 0 || comp > 15 || !space(&p, end)) return 0;
    int select = byte(&p, end);
    if (select < 0) return 0;
    int umask = byte(&p, end);
    if (umask < 0) return 0;
    if (end - p < 2 || (p[0] != 'u' && p[0] != 'k') || p[1] != ' ') return 0;
    o->kernel = p[0] == 'k';
    p += 2;
    int64_t amount = decimal(&p, end, 3);
    if (amount < 1 || amount > 255 || !space(&p, end)) return 0;
    if (!counter(&p, end, &o->pc)) return 0;
    if (version == 2) {
        if (!space(&p, end)) return 0;
        int64_t stamp = decimal(&p, end, 10);
        if (stamp < 0 || stamp > 4294967294) return 0;
        o->stamp = (uint64_t)stamp;
    }
    o->comp = (unsigned)comp;
    o->select = (unsigned)select;
    o->umask = (unsigned)umask;
    o->amount = (unsigned)amount;
    return p == end;
}

static int bad(const struct reader *r, const char *cause) {
    fprintf(stderr, "line %llu: %s\n", (unsigned long long)r->line, cause);
    return -1;
}

/* Says why the fields of a line are refused. */
static int bad_fields(const struct reader *r, const unsigned char *p, const unsigned char *end) {
    int spaces = 0;
    for (; p < end; p++) spaces += *p == ' ';
    return bad(r, spaces == r->version + 4 ? "bad field" : "wrong number of fields");
}

/* Any line, which has `ended` with a newline or not. Returns 1 if it has an occurrence, 0 if it has
 * none, and -1 if it is bad. */
static int any_line(const struct reader *r, const unsigned char *p, const unsigned char *end,
                    int ended, struct occurrence *o) {
    if (end - p > LONGEST_LINE) return bad(r, "line too long");
    if (r->passed + (uint64_t)(end - r->bytes) > LARGEST_STREAM) return bad(r, "stream too long");
    if (ended && end > p && end[-1] == '\r') end--;
    if (p == end || *p == '#' || (r->version == 2 && r->line == 1)) return 0;
    return fields(p, end, r->version, o) ? 1 : bad_fields(r, p, end);
}

/* What is done with each occurrence. */
typedef void counting(void *to, const struct occurrence *o);

/* Hands an occurrence on. Returns -1 if its stamp is bad. */
INLINE int take(struct reader *r, struct occurrence *o, int version, counting *count, void *to) {
    if (version == 1) o->stamp = r->consumed;
    else if ((int64_t)o->stamp <= r->last_stamp) return bad(r, "stamp does not rise");
    else r->last_stamp = (int64_t)o->stamp;
    r->consumed++;
    count(to, o);
    return 0;
}

/* Goes through the whole lines that are held, up to `last` occurrences. Returns -1 at a bad
 * line. */
INLINE int whole_lines(struct reader *r, uint64_t last, int version, counting *count, void *to) {
    size_t at = r->at, word = r->word;
    uint64_t newlines = word < r->words ? r->newlines[word] : 0;
    int within = r->passed + r->held <= LARGEST_STREAM, status = 0;
    while (status == 0 && r->consumed < last) {
        while (newlines == 0 && ++word < r->words) newlines = r->newlines[word];
        if (newlines == 0) break;
        const unsigned char *from = r->bytes + at,
                            *end = r->bytes + 64 * word + __builtin_ctzll(newlines);
        struct occurrence o;
        newlines &= newlines - 1;
        at = (size_t)(end - r->bytes) + 1;
        r->line++;
        int held = within && *from != '#' && common_line(from, end, version, &o)
                       ? 1
                       : any_line(r, from, end, 1, &o);
        status = held > 0 ? take(r, &o, version, count, to) : held;
    }
    r->at = at;
    r->word = word;
    if (word < r->words) r->newlines[word] = newlines;
    return status;
}

/* Reads a piece after what is left, which goes to the front, and finds its newlines. Returns its
 * length, or -1. */
static ssize_t read_piece(struct reader *r) {
    memmove(r->bytes, r->bytes + r->at, r->held - r->at);
    r->passed += r->at;
    r->held -= r->at;
    r->at = 0;
    ssize_t got = read(r->file, r->bytes + r->held, PIECE);
    if (got < 0) perror("read");
    else r->held += (size_t)got;
    r->words = (r->held + 63) / 64;
    r->word = 0;
    for (size_t i = 0; i < r->words; i++) r->newlines[i] = newlines_of(r->bytes + 64 * i);
    if (r->held % 64 != 0) r->newlines[r->words - 1] &= ((uint64_t)1 << r->held % 64) - 1;
    return got;
}

/* Goes on to a further piece, or takes the rest as a line if there is none. Returns 1 if lines may
 * follow, 0 at the end, and a status below 0. */
INLINE int further(struct reader *r, int version, counting *count, void *to) {
    struct occurrence o;
    if (r->ended) return 0;
    /* (what is longer is a line that is too long) */
    ssize_t got = r->held - r->at > LONGEST_LINE ? 0 : read_piece(r);
    if (got != 0) return got > 0 ? 1 : -2;
    r->ended = 1;
    if (r->held == r->at) return 0;
    r->line++;
    int held = any_line(r, r->bytes + r->at, r->bytes + r->held, 0, &o);
    r->at = r->held;
    return held > 0 ? take(r, &o, version, count, to) : held;
}

INLINE int consume_version(struct reader *r, uint64_t last, int version, counting *count,
                           void *to) {
    for (;;) {
        int status = whole_lines(r, last, version, count, to);
        if (status < 0 || r->consumed == last) return status;
        if ((status = further(r, version, count, to)) <= 0) return status;
    }
}

/* Consumes the next n occurrences, or as many as there are. Returns 0, -1 at the first bad line,
 * which it names, or -2 if a read fails. */
INLINE int consume(struct reader *r, uint64_t n, counting *count, void *to) {
    uint64_t last = n > UINT64_MAX - r->consumed ? UINT64_MAX : r->consumed + n;
    return r->version == 2 ? consume_version(r, last, 2, count, to)
                           : consume_version(r, last, 1, count, to);
}

/* Whether the first line is `version 2`, with or without a carriage return before its newline. */
static int version_of(const struct reader *r) {
    static const char *const first[] = {"version 2\n", "version 2\r\n"};
    for (int i = 0; i < 2; i++)
        if (r->held >= strlen(first[i]) && memcmp(r->bytes, first[i], strlen(first[i])) == 0)
            return 2;
    return r->held == 9 && memcmp(r->bytes, "version 2", 9) == 0 ? 2 : 1;
}

/* Begins to read a file. Returns 0, or -2 if a read fails. */
static int begin_reading(struct reader *r, int file) {
    memset(r, 0, sizeof *r);
    r->file = file;
    r->last_stamp = -1;
    ssize_t got;
    /* (a first piece may be short) */
    do got = read_piece(r);
    while (got > 0 && r->held < LONGEST_LINE);
    r->version = version_of(r);
    return got < 0 ? -2 : 0;
}
