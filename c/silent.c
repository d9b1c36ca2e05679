/* Events that count nothing. A native event of a set that is started, for which no line of the
 * thread's stream counts, is told once on standard error. The core is asked: a library of its own
 * counts the event over two lines of each head that the stream has. With KISTALUB_HINTS=0 nothing
 * is told. */
#include "posix.h"
#include "environment.h"
#include "events.h"
#include "files.h"
#include "limits.h"
#include "locks.h"
#include "papi.h"
#include "process.h"
#include "sets.h"
#include "signals.h"
#include "silent.h"
#include "thread.h"

#include <pthread.h>
#include <stdint.h>
#include <stdio.h>
#include <stdlib.h>
#include <string.h>

#define COMPONENTS 16
#define PART_VALUES 256 /* of a select code, and of a umask */
#define MODES 2
#define ALL_HEADS (COMPONENTS * PART_VALUES * PART_VALUES * MODES)
#define MOST_HEADS_ASKED 4096 /* of a stream with more nothing is told */
#define AMOUNT (LARGEST_AMOUNT + 1) /* two lines: one of the most, and one of 1 */

/* What was asked, by the number of the thread whose stream it is: 0 for one that all threads
 * have. */
struct kl_asked { struct kl_asked *next; uint32_t stream; char name[]; };

int kl_tells_silence(void) {
    const char *hints = kl_variable("KISTALUB_HINTS");
    return !hints || strcmp(hints, "0") != 0;
}

/* -- the heads of a stream -- */

static int digit_of(unsigned char letter) {
    if (letter >= '0' && letter <= '9') return letter - '0';
    letter |= 0x20;
    return letter >= 'a' && letter <= 'f' ? letter - 'a' + 10 : -1;
}

/* Two hexadecimal digits and a space, or -1. */
static int byte_at(const unsigned char *at) {
    int high = digit_of(at[0]), low = digit_of(at[1]);
    return high < 0 || low < 0 || at[2] != ' ' ? -1 : high << 4 | low;
}

/* The number of the head of a line `COMP SELECT UMASK MODE ..`, or -1 if it has none. */
static int head_of(const unsigned char *line, const unsigned char *end) {
    int component = 0;
    while (line < end && *line >= '0' && *line <= '9' && component < COMPONENTS)
        component = 10 * component + *line++ - '0';
    if (end - line < 9 || *line++ != ' ' || component >= COMPONENTS) return -1;
    int select = byte_at(line), mask = byte_at(line + 3), mode = line[6];
    if (select < 0 || mask < 0 || (mode != 'u' && mode != 'k') || line[7] != ' ') return -1;
    return ((component * PART_VALUES + select) * PART_VALUES + mask) * MODES + (mode == 'k');
}

/* The heads that a stream has, in their order, and how many; MOST_HEADS_ASKED + 1 if there are
 * more. */
static unsigned find_heads(const text *stream, unsigned char *seen, int *heads) {
    const unsigned char *at = stream->bytes, *end = stream->bytes + stream->length;
    unsigned count = 0;
    while (at < end && count <= MOST_HEADS_ASKED) {
        const unsigned char *line_end = memchr(at, '\n', (size_t)(end - at));
        int head = head_of(at, line_end ? line_end : end);
        if (head >= 0 && !seen[head]) {
            seen[head] = 1;
            heads[count++] = head;
        }
        at = line_end ? line_end + 1 : end;
    }
    return count;
}

static kistalub_occurrences occurrences_of(int head) {
    const int parts = head / MODES;
    return (kistalub_occurrences){
        .amount = AMOUNT,
        .component = (uint8_t)(parts / PART_VALUES / PART_VALUES),
        .select = (uint8_t)(parts / PART_VALUES % PART_VALUES),
        .umask = (uint8_t)(parts % PART_VALUES),
        .kernel = (uint8_t)(head % MODES),
    };
}

static int put_heads(const int *found, unsigned count, kl_heads *heads) {
    heads->of = malloc(count * sizeof *heads->of);
    if (!heads->of) return PAPI_ENOMEM;
    for (unsigned i = 0; i < count; i++) heads->of[i] = occurrences_of(found[i]);
    heads->count = count;
    return PAPI_OK;
}

void kl_drop_heads(kl_heads *heads) {
    free(heads->of);
    *heads = (kl_heads){ NULL, 0 };
}

int kl_take_heads(const text *stream, kl_heads *heads) {
    /* not on the stack: a thread may have a small one */
    struct { int heads[MOST_HEADS_ASKED + 1]; unsigned char seen[ALL_HEADS]; } *found;
    kl_drop_heads(heads);
    if (!stream->length) return PAPI_OK;
    found = calloc(1, sizeof *found);
    if (!found) return PAPI_ENOMEM;
    unsigned count = find_heads(stream, found->seen, found->heads);
    int code =
        count == 0 || count > MOST_HEADS_ASKED ? PAPI_OK : put_heads(found->heads, count, heads);
    free(found);
    return code;
}

/* -- an event over them -- */

/* These happen. No event has a threshold. */
static int all_happen(kistalub *probe, const kl_heads *heads) {
    kistalub_passing passings[MOST_EVENTS];
    uint64_t told = 0;
    int code = PAPI_OK;
    for (size_t i = 0; code == PAPI_OK && i < heads->count; i++) {
        kistalub_occurrences one = heads->of[i];
        code = kistalub_happen(probe, &one, 1, passings, MOST_EVENTS, &told);
    }
    return code;
}

/* Lets a set with the event alone count them, in user and kernel mode. */
static int count_heads(kistalub *probe, uint32_t set, const char *name, const kl_heads *heads,
                       int64_t *value) {
    uint32_t count = 0;
    int64_t values[MOST_EVENTS] = { 1 };
    int code = kistalub_set_domain(probe, set, PAPI_DOM_USER | PAPI_DOM_KERNEL);
    if (code == PAPI_OK)
        code = kistalub_add_named(probe, set, (const unsigned char *)name, strlen(name));
    if (code == PAPI_OK) code = kistalub_start(probe, set);
    if (code == PAPI_OK) code = all_happen(probe, heads);
    if (code == PAPI_OK) code = kistalub_stop(probe, set, values, MOST_EVENTS, &count);
    *value = values[0];
    return code;
}

/* Whether no line counts for the event. What can't be told does. */
static int ask_core(const kl_files *files, const char *name, const kl_heads *heads,
                    int *is_silent) {
    const text nothing = { NULL, 0 };
    kistalub probe = KISTALUB_SHUT;
    uint32_t set = 0;
    int64_t value = 1;
    int code = kl_open_over(&probe, files, 0, &nothing);
    if (code == PAPI_OK) code = kistalub_create(&probe, &set);
    if (code == PAPI_OK) code = count_heads(&probe, set, name, heads, &value);
    kistalub_close(&probe);
    *is_silent = code == PAPI_OK && value == 0;
    return code == PAPI_ENOMEM ? code : PAPI_OK;
}

static int is_asked(const kl_files *files, uint32_t stream, const char *name) {
    for (const struct kl_asked *a = files->asked; a; a = a->next)
        if (a->stream == stream && !strcmp(a->name, name)) return 1;
    return 0;
}

/* Under kl_asked_lock. What memory was refused to is asked once more. */
static int judge_native(kl_files *files, uint32_t stream, const char *name, const kl_heads *heads) {
    int is_silent = 0;
    if (is_asked(files, stream, name)) return PAPI_OK;
    struct kl_asked *made = malloc(sizeof *made + strlen(name) + 1);
    int code = made ? ask_core(files, name, heads, &is_silent) : PAPI_ENOMEM;
    if (code != PAPI_OK) {
        free(made);
        return code;
    }
    made->next = files->asked;
    made->stream = stream;
    strcpy(made->name, name);
    files->asked = made;
    if (is_silent)
        fprintf(stderr, "papi: stream %u: %s counts 0, since no line counts for it\n",
                (unsigned)stream, name);
    return PAPI_OK;
}

void kl_forget_asked(kl_files *files) {
    while (files->asked) {
        struct kl_asked *gone = files->asked;
        files->asked = gone->next;
        free(gone);
    }
}

static int judge_event(thread_state *t, kl_files *files, uint32_t code) {
    char name[NAME_ROOM];
    uint32_t stream = strstr(files->streams, "%t") ? t->number : 0;
    int answer = PAPI_OK;
    for (uint32_t place = 0; answer == PAPI_OK; place++) {
        answer = kl_native_name(t, code, place, name);
        if (answer != PAPI_OK) break;
        pthread_mutex_lock(&kl_asked_lock);
        answer = judge_native(files, stream, name, &t->heads);
        pthread_mutex_unlock(&kl_asked_lock);
    }
    return answer == PAPI_ENOMEM ? answer : PAPI_OK;
}

int kl_judge_events(thread_state *t, uint32_t set) {
    uint32_t codes[MOST_EVENTS];
    uint64_t count = 0;
    int answer = PAPI_OK;
    NO_CANCELLATION;
    kl_files *files = t->heads.count ? kl_hold_files() : NULL;
    if (!files) return PAPI_OK;
    if (kl_core_begins(t)) {
        kl_core_changes(t);
        if (kistalub_list_events(&t->library, set, codes, MOST_EVENTS, &count) != PAPI_OK)
            count = 0;
        for (uint64_t i = 0; answer == PAPI_OK && i < count && i < MOST_EVENTS; i++)
            answer = judge_event(t, files, codes[i]);
        kl_core_ends(t);
    }
    kl_release_files(files);
    return answer;
}

/* -- the natives of an event -- */

/* Of a native event itself, its own name in place 0. PAPI_ENOEVNT if there is none in the place. */
int kl_native_name(thread_state *t, uint32_t code, uint32_t place, char name[NAME_ROOM]) {
    uint64_t length = 0;
    int answer = kistalub_info(&t->library, code, KISTALUB_NATIVE, place, (unsigned char *)name,
                               NAME_ROOM - 1, &length);
    if (place == 0 && answer != PAPI_ENOMEM && (answer != PAPI_OK || !length))
        answer =
            kistalub_code_to_name(&t->library, code, (unsigned char *)name, NAME_ROOM - 1, &length);
    if (answer != PAPI_OK) length = 0;
    name[length] = 0;
    return answer == PAPI_OK && !length ? PAPI_ENOEVNT : answer;
}
