/* A script by hand: calls UNIT SCRIPT STREAM [PRESETS]. Reads a unit, presets and a script of
 * thread 0, carries the calls out in order over the stream, and keeps the replies until the end, as
 * papi_run does. Ends with 1 and a line at what it does not know: README.md says what that is. */
#include "read_stream.h"
#include "tables.h"
#include <fcntl.h>

enum { SETS = 64, RUNNING = 64, LONGEST_REPLY = 1024 };

struct set {
    struct event events[EVENTS];
    struct native natives[NATIVES];
    int event_count, native_count, running;
    uint64_t counts[NATIVES];
    int64_t values[EVENTS], sums[EVENTS];
};

static struct set sets[SETS];
static unsigned set_count;
static struct reader reader;

/* The counters of the sets that run, a bit each, and which an occurrence can move by its fields. */
static uint64_t *counters[RUNNING];
static uint64_t by_select[256], by_umask[256], by_mode[16][2];

static void place_counter(unsigned place, const struct native *n, uint64_t *count) {
    uint64_t bit = (uint64_t)1 << place;
    counters[place] = count;
    by_select[n->select] |= bit;
    for (unsigned umask = 0; umask < 256; umask++)
        if (n->umask == 0 || (umask & n->umask) != 0) by_umask[umask] |= bit;
    if (n->modes != KERNEL) by_mode[n->comp][0] |= bit;
    if (n->modes & KERNEL) by_mode[n->comp][1] |= bit;
}

static void place_counters(void) {
    unsigned place = 0;
    memset(by_select, 0, sizeof by_select);
    memset(by_umask, 0, sizeof by_umask);
    memset(by_mode, 0, sizeof by_mode);
    for (unsigned s = 0; s < set_count; s++)
        for (int i = 0; sets[s].running && i < sets[s].native_count; i++) {
            if (place == RUNNING) fail("more counters than it has");
            place_counter(place++, &sets[s].natives[i], &sets[s].counts[i]);
        }
}

INLINE void count_all(void *to, const struct occurrence *o) {
    (void)to;
    uint64_t moved = by_select[o->select] & by_umask[o->umask] & by_mode[o->comp][o->kernel];
    for (; moved != 0; moved &= moved - 1) *counters[__builtin_ctzll(moved)] += o->amount;
}

/* The replies, which are kept until the end. */
static char *replies;
static size_t replied, room;

static void put_text(const char *text, size_t length) {
    memcpy(replies + replied, text, length);
    replied += length;
}

static void put_number(uint64_t n) {
    char text[20];
    size_t at = sizeof text;
    do text[--at] = (char)('0' + n % 10);
    while ((n /= 10) != 0);
    put_text(text + at, sizeof text - at);
}

static void put_value(int64_t value) {
    put_text(" -", value < 0 ? 2 : 1);
    put_number(value < 0 ? 0 - (uint64_t)value : (uint64_t)value);
}

static void begin_reply(unsigned line, struct text call) {
    if (room - replied < LONGEST_REPLY) {
        room = room ? 2 * room : 65536;
        replies = realloc(replies, room);
        if (replies == NULL) fail("out of memory");
    }
    put_number(line);
    put_text(" 0 ", 3);
    put_text(call.at, call.length);
    put_text(" PAPI_OK", 8);
}

/* The values of a set: sums and differences of counts. */
static void compute(struct set *s) {
    for (int i = 0; i < s->event_count; i++) {
        const struct event *e = &s->events[i];
        uint64_t value = s->counts[e->natives[0]];
        for (int k = 1; k < e->count; k++)
            value += e->subtracts ? 0 - s->counts[e->natives[k]] : s->counts[e->natives[k]];
        s->values[i] = (int64_t)value;
    }
}

static void put_values(const struct set *s, const int64_t *values) {
    for (int i = 0; i < s->event_count; i++) put_value(values[i]);
}

static void zero(struct set *s) {
    memset(s->counts, 0, sizeof s->counts);
}

/* The place of a native event in a set. It is added if it is not there. */
static int place_native(struct set *s, const struct native *n) {
    for (int i = 0; i < s->native_count; i++)
        if (memcmp(&s->natives[i], n, sizeof *n) == 0) return i;
    if (s->native_count == NATIVES) fail("more than 32 native events");
    s->natives[s->native_count] = *n;
    return s->native_count++;
}

static void add(struct set *s, struct text name) {
    struct native natives[NATIVES_OF_PRESET];
    if (s->event_count == EVENTS || s->running) fail("an event that cannot be added");
    struct event *e = &s->events[s->event_count++];
    e->count = find_event(name, natives, &e->subtracts);
    if (e->count == 0) fail("an event that is not known");
    for (int i = 0; i < e->count; i++) e->natives[i] = place_native(s, &natives[i]);
    zero(s);
}

static void call_create(unsigned line, struct text call) {
    if (set_count == SETS) fail("more than 64 sets");
    begin_reply(line, call);
    put_value(set_count++);
}

static void call_run(unsigned line, struct text call, uint32_t n) {
    uint64_t before = reader.consumed;
    if (consume(&reader, n, count_all, NULL) < 0) fail("a stream at fault");
    begin_reply(line, call);
    put_value((int64_t)(reader.consumed - before));
    put_value(0);
}

static void call_start(unsigned line, struct text call, struct set *s) {
    if (s->running || s->event_count == 0) fail("a set that cannot start");
    zero(s);
    s->running = 1;
    place_counters();
    begin_reply(line, call);
}

/* `read`, `accum` and `stop`. */
static void call_values(unsigned line, struct text call, struct set *s) {
    begin_reply(line, call);
    if (s->running) compute(s);
    if (is(call, "accum")) {
        for (int i = 0; i < s->event_count; i++)
            s->sums[i] = (int64_t)((uint64_t)s->sums[i] + (uint64_t)s->values[i]);
        zero(s);
        put_values(s, s->sums);
        return;
    }
    put_values(s, s->values);
    if (is(call, "stop")) {
        s->running = 0;
        place_counters();
    }
}

/* Carries one line out, up to the end of its reply. */
static void carry_out(unsigned line, struct text rest) {
    struct text thread = next_word(&rest), call = next_word(&rest), first = next_word(&rest),
                second = next_word(&rest);
    if (!is(thread, "0") || rest.length != 0) fail("a line it does not know");
    if (is(call, "create") && first.length == 0) {
        call_create(line, call);
        return;
    }
    uint32_t n = number(first);
    if (is(call, "run") && second.length == 0) {
        call_run(line, call, n);
        return;
    }
    if (n >= set_count) fail("a set that is not there");
    struct set *s = &sets[n];
    if (is(call, "add") && second.length != 0) {
        add(s, second);
        begin_reply(line, call);
    } else if (second.length != 0) {
        fail("a line it does not know");
    } else if (is(call, "start")) {
        call_start(line, call, s);
    } else if (is(call, "read") || is(call, "accum") || (is(call, "stop") && s->running)) {
        call_values(line, call, s);
    } else {
        fail("a call it does not know");
    }
}

int main(int argc, char **argv) {
    if (argc < 4 || argc > 5) {
        fprintf(stderr, "usage: calls UNIT SCRIPT STREAM [PRESETS]\n");
        return 2;
    }
    read_unit(argv[1]);
    if (argc == 5) read_presets(argv[4]);
    struct text script = whole_file(argv[2]), rest = script;
    int file = open(argv[3], O_RDONLY);
    if (file < 0 || begin_reading(&reader, file) < 0) fail("no stream");
    for (unsigned line = 1; rest.length != 0; line++) {
        carry_out(line, next_line(&rest));
        put_text("\n", 1);
    }
    int written = fwrite(replies, 1, replied, stdout) == replied && fflush(stdout) == 0;
    free(script.at);
    return written ? 0 : 5;
}
