/* The work of papi_run and papi_profil by hand, for each row of bench/run over a stream: count KIND
 * STREAM.. Each stream has a thread of its own. Prints what the replies of `run`, `read` and `stop`
 * have after PAPI_OK, a line each, or the histogram. */
#include "read_stream.h"
#include <fcntl.h>
#include <pthread.h>
#include <stdlib.h>

enum { COUNTERS = 32, THRESHOLD = 1000, SMALL_THRESHOLD = 256, SLICE = 1000 };

/* The map of the row with a histogram. */
enum { START = 0x400000, WIDTH = 16, BUCKETS = 65536 };

struct note {
    uint32_t thread, set, index;
    uint64_t pc;
};

struct work {
    uint64_t totals[COUNTERS + 1]; /* the last one is of no event */
    int left[4];
    struct note *notes;
    size_t noted, room;
    int group, left_of_turn;
    uint64_t active[2];
    uint32_t hits[BUCKETS], outside;
    struct reader reader;
    const char *stream;
    const struct kind *kind;
    int status;
};

/* No set runs. */

INLINE void count_nothing(void *to, const struct occurrence *o) {
    (void)to, (void)o;
}

/* INST_RETIRED, CYCLES and BR_INST:ALL of component 0, in user mode. Amounts are added under a
 * mask: a processor cannot foresee which count. */

INLINE unsigned under(unsigned amount, int counts) {
    return amount & (0u - (unsigned)counts);
}

INLINE void count_three(void *to, const struct occurrence *o) {
    struct work *w = to;
    unsigned amount = under(o->amount, (o->comp == 0) & !o->kernel);
    w->totals[0] += under(amount, o->select == 0xc0);
    w->totals[1] += under(amount, o->select == 0x3c);
    w->totals[2] += under(amount, (o->select == 0xc4) & (int)(o->umask & 1));
}

/* BR_INST:ALL in both modes: a tenth of the lines. */

INLINE void count_branches(void *to, const struct occurrence *o) {
    struct work *w = to;
    w->totals[0] += under(o->amount, (o->comp == 0) & (o->select == 0xc4) & (int)(o->umask & 1));
}

/* The three events, each with a threshold, and a list of the notes. */

static void note(struct work *w, unsigned event, uint64_t pc) {
    if (w->noted == w->room) {
        w->room = w->room ? 2 * w->room : 16;
        w->notes = realloc(w->notes, w->room * sizeof *w->notes);
        if (w->notes == NULL) exit(4);
    }
    w->notes[w->noted++] = (struct note){0, 0, event, pc};
}

INLINE void count_thresholds(void *to, const struct occurrence *o) {
    static const unsigned char events[256] = {[0xc0] = 1, [0x3c] = 2, [0xc4] = 3};
    struct work *w = to;
    unsigned event = events[o->select];
    unsigned amount =
        under(o->amount, (o->comp == 0) & !o->kernel & ((event != 3) | (int)(o->umask & 1)));
    amount = under(amount, event != 0);
    w->totals[(event - 1) & 31] += amount;
    w->left[event] -= (int)amount;
    if (w->left[event] <= 0) {
        /* (an amount is below the threshold) */
        w->left[event] += THRESHOLD;
        note(w, event - 1, o->pc);
    }
}

/* 32 events of one select code: 16 umasks, each in user and in kernel mode. */

static uint64_t wanted[2][4][32];

static void prepare_alike(void) {
    for (unsigned umask = 0; umask < 4; umask++)
        for (unsigned i = 0; i < 32; i++)
            wanted[i % 2][umask][i] = umask & (i / 2 % 3 + 1) ? UINT64_MAX : 0;
}

INLINE void count_alike(void *to, const struct occurrence *o) {
    struct work *w = to;
    if (o->comp != 0 || o->select != 0xc0) return;
    const uint64_t *masks = wanted[o->kernel][o->umask & 3];
    for (int i = 0; i < 32; i++) w->totals[i] += masks[i] & o->amount;
}

/* The third of these umasks in user mode. */

INLINE void count_one(void *to, const struct occurrence *o) {
    struct work *w = to;
    w->totals[0] +=
        under(o->amount, (o->comp == 0) & (o->select == 0xc0) & ((o->umask & 3) != 0) & !o->kernel);
}

/* Six events in two groups, which take turns of 1,000 ticks. In version 1 each occurrence is a
 * tick. */

INLINE void count_turns(void *to, const struct occurrence *o) {
    struct work *w = to;
    if (w->group == 0) {
        count_three(to, o);
    } else {
        unsigned amount = under(o->amount, o->comp == 0);
        w->totals[3] += under(amount, (o->select == 0xc5) & !o->kernel);
        w->totals[4] += under(amount, (o->select == 0x2e) & !o->kernel);
        w->totals[5] += under(amount, (o->select == 0xc0) & o->kernel);
    }
    if (--w->left_of_turn == 0) {
        w->active[w->group] += SLICE;
        w->left_of_turn = SLICE;
        w->group = 1 - w->group;
    }
}

static void estimate(struct work *w) {
    w->active[w->group] += (uint64_t)(SLICE - w->left_of_turn);
    for (int i = 0; i < 6; i++) {
        uint64_t own = w->active[i / 3];
        w->totals[i] = own ? w->totals[i] * (w->active[0] + w->active[1]) / own : 0;
    }
}

/* One event of each of 16 components. */

INLINE void count_components(void *to, const struct occurrence *o) {
    struct work *w = to;
    w->totals[o->comp] += under(o->amount, (o->select == 0xc0) & !o->kernel);
}

/* INST_RETIRED with a small threshold: in which bucket each threshold was passed. */

INLINE void count_hits(void *to, const struct occurrence *o) {
    struct work *w = to;
    w->left[0] -= (int)under(o->amount, (o->comp == 0) & (o->select == 0xc0) & !o->kernel);
    if (w->left[0] > 0) return;
    w->left[0] += SMALL_THRESHOLD;
    uint64_t bucket = (o->pc - START) / WIDTH;
    if (o->pc >= START && bucket < BUCKETS) w->hits[bucket]++;
    else w->outside++;
}

static void print_hits(const struct work *w) {
    uint64_t hits = 0;
    for (int i = 0; i < BUCKETS; i++) hits += w->hits[i];
    printf("range code %llu\n", (unsigned long long)hits);
    for (unsigned i = 0; i < BUCKETS; i++)
        if (w->hits[i]) printf("0x%x %u\n", START + i * WIDTH, w->hits[i]);
    printf("outside %u\ntotal %llu\n", w->outside, (unsigned long long)(hits + w->outside));
}

/* The kinds of work. Each has a reader of its own, into which the compiler puts its counting. */

#define READER(name, count) \
    static int name(struct work *w) { return consume(&w->reader, UINT64_MAX, count, w); }

READER(read_nothing, count_nothing)
READER(read_three, count_three)
READER(read_branches, count_branches)
READER(read_thresholds, count_thresholds)
READER(read_alike, count_alike)
READER(read_one, count_one)
READER(read_turns, count_turns)
READER(read_components, count_components)
READER(read_hits, count_hits)

static const struct kind {
    const char *name;
    int (*read)(struct work *w);
    int values, sets;
} kinds[] = {
    {"nothing", read_nothing, 0, 0}, {"three", read_three, 3, 1}, {"branches", read_branches, 1, 1},
    {"thresholds", read_thresholds, 3, 1},   {"alike", read_alike, 32, 1}, {"one", read_one, 1, 1},
    {"turns", read_turns, 6, 1}, {"hits", read_hits, 0, 0}, {"components", read_components, 16, 16},
};

static const struct kind *kind_of(const char *name) {
    for (size_t i = 0; i < sizeof kinds / sizeof *kinds; i++)
        if (strcmp(kinds[i].name, name) == 0) return &kinds[i];
    return NULL;
}

static void print_values(const uint64_t *totals, int n) {
    for (int i = 0; i < n; i++)
        printf("%llu%c", (unsigned long long)totals[i], i + 1 < n ? ' ' : '\n');
}

static void print_work(const struct work *w) {
    int each = w->kind->sets ? w->kind->values / w->kind->sets : 0;
    if (w->kind->read == read_hits) print_hits(w);
    else printf("%llu %zu\n", (unsigned long long)w->reader.consumed, w->noted);
    for (int set = 0; set < w->kind->sets; set++) print_values(w->totals + set * each, each);
}

static void *do_work(void *argument) {
    struct work *w = argument;
    int file = open(w->stream, O_RDONLY);
    if (file < 0) perror(w->stream);
    w->left_of_turn = SLICE;
    for (int i = 0; i < 4; i++)
        w->left[i] = w->kind->read == read_hits ? SMALL_THRESHOLD : THRESHOLD;
    w->status = file < 0 || begin_reading(&w->reader, file) < 0 || w->kind->read(w) < 0;
    if (w->kind->read == read_turns) estimate(w);
    return NULL;
}

int main(int argc, char **argv) {
    enum { MOST = 64 };
    static pthread_t threads[MOST];
    const struct kind *kind = argc > 2 && argc - 2 <= MOST ? kind_of(argv[1]) : NULL;
    struct work *works = kind ? calloc((size_t)argc - 2, sizeof *works) : NULL;
    if (works == NULL) {
        fprintf(stderr, "usage: count KIND STREAM..\n");
        return 2;
    }
    prepare_alike();
    int streams = argc - 2;
    for (int i = 0; i < streams; i++) {
        works[i].kind = kind;
        works[i].stream = argv[2 + i];
        if (i > 0 && pthread_create(&threads[i], NULL, do_work, &works[i]) != 0) return 4;
    }
    do_work(&works[0]);
    for (int i = 1; i < streams; i++) pthread_join(threads[i], NULL);
    for (int i = 0; i < streams; i++) {
        if (works[i].status != 0) return 2;
        print_work(&works[i]);
        free(works[i].notes);
    }
    free(works);
    return fflush(stdout) == 0 ? 0 : 5;
}
