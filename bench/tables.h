/* Units, presets and the words of a script for calls.c: a well-formed file is read, and what is not
 * known ends the program. */
#include <stdint.h>
#include <stdio.h>
#include <stdlib.h>
#include <string.h>

enum { EVENTS = 32, NATIVES = 32, NATIVES_OF_PRESET = 8, USER = 1, KERNEL = 2 };

/* A part of a file, which stays in memory. */
struct text {
    char *at;
    size_t length;
};

/* A native event: its modes are 0 if it names none, which counts the user's. */
struct native {
    uint8_t comp, select, umask, modes;
};

/* An event of a set: the places of its native events, which are added, or subtracted from the
 * first. */
struct event {
    int natives[NATIVES_OF_PRESET], count, subtracts;
};

static _Noreturn void fail(const char *what) {
    fprintf(stderr, "calls: %s\n", what);
    exit(1);
}

static int is(struct text t, const char *word) {
    return t.length == strlen(word) && memcmp(t.at, word, t.length) == 0;
}

static int same(struct text a, struct text b) {
    return a.length == b.length && memcmp(a.at, b.at, a.length) == 0;
}

/* Takes the part before a byte, or all, off the front of a text. */
static struct text cut(struct text *rest, char at) {
    char *found = rest->length ? memchr(rest->at, at, rest->length) : NULL;
    struct text part = {rest->at, found ? (size_t)(found - rest->at) : rest->length};
    size_t taken = part.length + (found != NULL);
    rest->at += taken;
    rest->length -= taken;
    return part;
}

static struct text next_line(struct text *rest) {
    return cut(rest, '\n');
}

/* The next word of a line, whose words have single spaces between them; an empty one at the end. */
static struct text next_word(struct text *rest) {
    return cut(rest, ' ');
}

static uint32_t number(struct text t) {
    uint64_t n = 0;
    if (t.length == 0 || t.length > 10 || (t.length > 1 && t.at[0] == '0'))
        fail("a number at fault");
    for (size_t i = 0; i < t.length; i++) {
        if (t.at[i] < '0' || t.at[i] > '9') fail("a number at fault");
        n = n * 10 + (uint64_t)(t.at[i] - '0');
    }
    if (n > UINT32_MAX) fail("a number at fault");
    return (uint32_t)n;
}

static uint8_t hexadecimal(struct text t) {
    char digits[3] = {0}, *end;
    if (t.length < 1 || t.length > 2) fail("a code at fault");
    memcpy(digits, t.at, t.length);
    unsigned long n = strtoul(digits, &end, 16);
    if (*end != 0) fail("a code at fault");
    return (uint8_t)n;
}

/* Reads a file whole. */
static struct text whole_file(const char *name) {
    FILE *f = fopen(name, "rb");
    if (f == NULL || fseek(f, 0, SEEK_END) != 0) fail("no file");
    long length = ftell(f);
    char *at = length < 0 ? NULL : malloc((size_t)length + 1);
    rewind(f);
    if (at == NULL || fread(at, 1, (size_t)length, f) != (size_t)length) fail("no file");
    fclose(f);
    return (struct text){at, (size_t)length};
}

/* The unit: its events, in order, and the umasks of all. */
struct unit_event {
    struct text pmu, name;
    struct native native;
    int first_umask, umask_count, default_umask;
};

struct umask {
    struct text name;
    uint8_t bits;
};

enum { MOST_EVENTS = 16384, MOST_UMASKS = 65536, MOST_PRESETS = 1024 };

static struct unit_event unit[MOST_EVENTS];
static struct umask unit_umasks[MOST_UMASKS];
static int unit_count, umask_count, component_count;

static void umask_row(struct text row) {
    if (unit_count == 0 || umask_count == MOST_UMASKS) fail("a unit it does not know");
    struct unit_event *e = &unit[unit_count - 1];
    struct umask *u = &unit_umasks[umask_count++];
    u->name = cut(&row, ',');
    u->bits = hexadecimal(cut(&row, ','));
    struct text flags = cut(&row, ',');
    if (memchr(flags.at, 'd', flags.length) != NULL) e->default_umask = e->umask_count;
    e->umask_count++;
}

static void event_row(struct text row, struct text pmu) {
    if (component_count == 0 || unit_count == MOST_EVENTS) fail("a unit it does not know");
    struct unit_event *e = &unit[unit_count++];
    e->pmu = pmu;
    e->name = cut(&row, ',');
    e->native = (struct native){(uint8_t)(component_count - 1), hexadecimal(cut(&row, ',')), 0, 0};
    e->first_umask = umask_count;
    e->default_umask = -1;
}

static void read_unit(const char *name) {
    struct text rest = whole_file(name), pmu = {0};
    while (rest.length != 0) {
        struct text row = next_line(&rest), kind = cut(&row, ',');
        if (is(kind, "COMPONENT")) {
            cut(&row, ',');
            pmu = row;
            component_count++;
        } else if (is(kind, "EVENT")) {
            event_row(row, pmu);
        } else if (is(kind, "UMASK")) {
            umask_row(row);
        }
    }
}

/* Chooses a umask or a mode of an event. Returns 0 if the attribute is neither. */
static int choose(const struct unit_event *e, struct native *n, struct text attribute) {
    for (int i = 0; i < e->umask_count; i++)
        if (same(attribute, unit_umasks[e->first_umask + i].name)) {
            n->umask |= unit_umasks[e->first_umask + i].bits;
            return 1;
        }
    n->modes = (uint8_t)(n->modes | (is(attribute, "u") ? USER : is(attribute, "k") ? KERNEL : 0));
    return n->modes != 0;
}

/* The native event of a text `[pmu::]event[:attribute]..`. Returns 0 if there is none. */
static int find_native(struct text text, struct native *n) {
    struct text pmu = {0}, name = cut(&text, ':');
    if (text.length != 0 && text.at[0] == ':') {
        pmu = name;
        cut(&text, ':');
        name = cut(&text, ':');
    }
    for (int i = 0; i < unit_count; i++) {
        const struct unit_event *e = &unit[i];
        if (!same(name, e->name) || (pmu.length != 0 && !same(pmu, e->pmu))) continue;
        *n = e->native;
        while (text.length != 0)
            if (!choose(e, n, cut(&text, ':'))) return 0;
        if (n->umask == 0 && e->default_umask >= 0)
            n->umask = unit_umasks[e->first_umask + e->default_umask].bits;
        return 1;
    }
    return 0;
}

/* The presets of the file's one processor. */
static struct preset {
    struct text symbol, type, natives;
} presets[MOST_PRESETS];
static int preset_count;

static void read_presets(const char *name) {
    struct text rest = whole_file(name);
    while (rest.length != 0) {
        struct text row = next_line(&rest);
        if (!is(cut(&row, ','), "PRESET")) continue;
        if (preset_count == MOST_PRESETS) fail("presets it does not know");
        struct preset *p = &presets[preset_count++];
        p->symbol = cut(&row, ',');
        p->type = cut(&row, ',');
        p->natives = row;
    }
}

/* The native events of a preset or of a native event's name, and how many; 0 if there are none. */
static int find_event(struct text name, struct native *natives, int *subtracts) {
    *subtracts = 0;
    for (int i = 0; i < preset_count; i++) {
        if (!same(name, presets[i].symbol)) continue;
        struct text rest = presets[i].natives;
        int count = 0;
        *subtracts = is(presets[i].type, "DERIVED_SUB");
        if (!*subtracts && !is(presets[i].type, "DERIVED_ADD") &&
            !is(presets[i].type, "NOT_DERIVED"))
            return 0;
        while (rest.length != 0)
            if (count == NATIVES_OF_PRESET || !find_native(cut(&rest, ','), &natives[count++]))
                return 0;
        return count;
    }
    return find_native(name, natives);
}
