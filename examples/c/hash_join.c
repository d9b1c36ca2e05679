/* A hash join under tools/count: the keys of a small table are put into buckets, and each row of a
 * large one finds its partners there. A table that the first cache holds, beside one that it does
 * not. */
#include "kernels.h"
#include <string.h>

#define PROBES 65536
#define FEW 512 /* rows: the buckets and rows take 6 KiB */
#define MANY 32768

typedef struct { unsigned key; int next; } row;

static _Alignas(4096) row rows[MANY];
static _Alignas(4096) int heads[MANY];
static _Alignas(4096) unsigned probes[PROBES];
static long long matches;

static unsigned hash(unsigned key, int size) {
    return key * 2654435761u >> 7 & ((unsigned)size - 1);
}

static void build(int size) {
    memset(heads, -1, sizeof *heads * (size_t)size);
    for (int i = 0; i < size; i++) {
        unsigned bucket = hash(rows[i].key, size);
        rows[i].next = heads[bucket];
        heads[bucket] = i;
    }
}

static void probe(int size) {
    for (int i = 0; i < PROBES; i++)
        for (int at = heads[hash(probes[i], size)]; at >= 0; at = rows[at].next)
            matches += rows[at].key == probes[i];
}

/* Each key stands in the small table once. Every other row of the large one has a partner. */
static counts join(int set, int size) {
    for (int i = 0; i < size; i++) rows[i].key = 2u * (unsigned)i;
    unsigned draw = 1;
    for (int i = 0; i < PROBES; i++) {
        draw = draw * 1664525u + 1013904223u;
        probes[i] = 2 * ((draw >> 8) % (unsigned)size) + (i & 1);
    }
    count(set, build, size);
    matches = 0;
    counts made = count(set, probe, size);
    printf("%d rows with %d: %lld matches, %lld operations\n", PROBES, size, matches,
           made.of[OPERATIONS]);
    return made;
}

int main(void) {
    int set = make_set();
    counts few = join(set, FEW), many = join(set, MANY);
    WANT(few.of[LOADS] >= 2 * PROBES, 1); /* the probe, and the head of its bucket */
    WANT(few.of[MISSES] < PROBES / 8, 1); /* a line of the probes has sixteen */
    WANT(many.of[MISSES] > 4 * few.of[MISSES], 1);
    puts("over a table larger than the cache it misses over four times as often");
    return 0;
}
