/* Each allocation of a library's life is refused in turn: the calls answer PAPI_ENOMEM, the handle
 * can be used on, and nothing leaks. */
#include "kistalub.h"
#include "refusing.h"
#include "wanted.h"
#include <string.h>

static unsigned char unit[65536], presets[65536];
static size_t unit_length, presets_length;
static const char stream[] = "0 c0 00 u 255 1\n0 c0 00 u 255 2\n0 c0 00 u 255 3\n0 c0 00 u 255 4\n";

static size_t file(const char *path, unsigned char *into) {
    FILE *f = fopen(path, "rb");
    if (!f) exit(2);
    size_t n = fread(into, 1, 65536, f);
    fclose(f);
    return n;
}

/* Makes the calls, and says how many were refused memory. If the first is refused there is no
 * library. */
static int live_once(void) {
    kistalub h = KISTALUB_SHUT;
    uint32_t set = 7, code = 0, consumed = 0, count = 0;
    uint64_t length = 0, told = 0;
    kistalub_fault fault;
    unsigned char name[64];
    kistalub_passing passings[32];
    const unsigned char *inst = (const unsigned char *)"INST_RETIRED";
    int refusals = 0, answer;
    answer =
        kistalub_open(&h, unit, unit_length, presets, presets_length, (const unsigned char *)"lab2",
                      4, 0, (const unsigned char *)stream, sizeof stream - 1);
    if (answer != 0) {
        WANT(answer, -2);
        WANT(kistalub_create(&h, &set), -16);
        kistalub_close(&h);
        return 1;
    }
    WANT(kistalub_create(&h, &set), 0);
    answer = kistalub_add_named(&h, set, inst, 12);
    if (answer != 0) {
        WANT(answer, -2);
        refusals++;
        WANT(kistalub_add_named(&h, set, inst, 12), 0);
    }
    answer = kistalub_name_to_code(&h, inst, 12, &code);
    WANT(answer, 0);
    answer = kistalub_code_to_name(&h, code, name, sizeof name, &length);
    if (answer != 0) {
        WANT(answer, -2);
        refusals++;
    }
    WANT(kistalub_overflow(&h, set, code, 1000), 0);
    WANT(kistalub_start(&h, set), 0);
    answer = kistalub_run(&h, 4, &consumed, passings, 32, &told, &fault);
    if (answer != 0) {
        WANT(answer, -2);
        refusals++;
        WANT(kistalub_run(&h, 4, &consumed, passings, 32, &told, &fault), 0);
    }
    int64_t value;
    WANT(kistalub_stop(&h, set, &value, 1, &count), 0);
    WANT(value, 1020);
    kistalub_close(&h);
    return refusals;
}

int main(int argc, char **argv) {
    if (argc != 3) return 2;
    unit_length = file(argv[1], unit);
    presets_length = file(argv[2], presets);
    long refusals = 0, k;
    for (k = 0;; k++) {
        long before = live;
        left = k;
        int n = live_once(), whole = left >= 0;
        left = -1;
        if (live != before) { printf("leak at allocation %ld: %ld\n", k, live - before); return 1; }
        refusals += n;
        if (whole) break;
        WANT(n, 1);
    }
    printf("each allocation refused once, none leaks: %s\n", refusals == k ? "yes" : "no");
    return refusals != k;
}
