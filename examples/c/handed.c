/* Occurrences that are handed over as numbers: they count as lines of 255 and a last one of the
 * rest. */
#include "kistalub.h"
#include "wanted.h"
#include <stdlib.h>
#include <string.h>

static const char stream[] = "0 c0 00 u 7 1\n";
static unsigned char unit[65536], none[1];
static size_t length;

static uint32_t hand_over(kistalub *h, uint32_t amount, uint8_t kernel, size_t room) {
    kistalub_occurrences what = {
        .address = 0x4a, .amount = amount, .select = 0xc0, .kernel = kernel
    };
    kistalub_passing passings[33];
    uint64_t told = 99;
    memset(passings, 0x7f, sizeof passings);
    int code = kistalub_happen(h, &what, 1, passings, room, &told);
    printf("%d: %u of %u, %llu passings", code, (unsigned)(amount - what.amount),
           (unsigned)amount, (unsigned long long)told);
    for (uint64_t k = 0; told < sizeof passings / sizeof *passings && k < told; k++)
        printf(", at 0x%llx", (unsigned long long)passings[k].address);
    puts("");
    return what.amount;
}

static void begin(kistalub *h, const char *text, const char *event, uint64_t threshold,
                  uint32_t *set) {
    WANT(kistalub_open(h, unit, length, none, 0, none, 0, 0, (const unsigned char *)text,
                       strlen(text)),
         0);
    WANT(kistalub_create(h, set), 0);
    WANT(kistalub_add_named(h, *set, (const unsigned char *)event, strlen(event)), 0);
    if (threshold)
        WANT(kistalub_overflow_named(h, *set, (const unsigned char *)event, strlen(event),
                                     threshold),
             0);
    WANT(kistalub_start(h, *set), 0);
}

static void print_value(kistalub *h, uint32_t set) {
    int64_t value = 0;
    uint32_t count = 0;
    WANT(kistalub_stop(h, set, &value, 1, &count), 0);
    printf("value %lld\n", (long long)value);
    kistalub_close(h);
}

/* A line of 255 passes the threshold of 1,000 at 1,020, and another one at 2,040. */
static void thresholds(void) {
    kistalub h = KISTALUB_SHUT;
    uint32_t set;
    begin(&h, "", "INST_RETIRED", 1000, &set);
    hand_over(&h, 8 * 255, 0, 31);
    uint32_t left = hand_over(&h, 8 * 255, 0, 32);
    hand_over(&h, left, 0, 32);
    hand_over(&h, 5, 0, 33);
    hand_over(&h, 9, 1, 32);
    hand_over(&h, 0, 0, 32);
    print_value(&h, set);
    hand_over(&h, 1, 0, 32);
}

/* Nothing happens before the stream has ended. */
static void after_a_stream(void) {
    kistalub h = KISTALUB_SHUT;
    kistalub_passing passings[32];
    kistalub_fault fault;
    uint32_t set, consumed;
    uint64_t told;
    begin(&h, stream, "INST_RETIRED", 0, &set);
    hand_over(&h, 1, 0, 32);
    WANT(kistalub_run(&h, 1, &consumed, passings, 32, &told, &fault), 0);
    hand_over(&h, 1, 0, 32);
    WANT(kistalub_run(&h, 1, &consumed, passings, 32, &told, &fault), 0);
    hand_over(&h, 3, 0, 32);
    print_value(&h, set);
}

/* Of 600 two lines have 255, and one 90. */
static void lines(void) {
    kistalub h = KISTALUB_SHUT;
    uint32_t set;
    begin(&h, "", "INST_RETIRED:c=200", 0, &set);
    hand_over(&h, 600, 0, 32);
    print_value(&h, set);
}

/* What comes after the first that passes a threshold waits for a further call. */
static void one_after_another(void) {
    kistalub h = KISTALUB_SHUT;
    kistalub_occurrences what[] = {
        { .amount = 5, .select = 0xc0 },
        { .amount = 1000, .select = 0xc0 },
        { .amount = 7, .select = 0xc0 },
    };
    kistalub_passing passings[32];
    uint64_t told;
    uint32_t set;
    begin(&h, "", "INST_RETIRED", 1000, &set);
    for (int times = 0; times < 2; times++) {
        WANT(kistalub_happen(&h, what, 3, passings, 32, &told), 0);
        printf("left %u, %u and %u, %llu passings\n", (unsigned)what[0].amount,
               (unsigned)what[1].amount, (unsigned)what[2].amount, (unsigned long long)told);
    }
    print_value(&h, set);
}

int main(void) {
    FILE *f = fopen(getenv("KISTALUB_UNIT"), "rb");
    if (!f) return 2;
    length = fread(unit, 1, sizeof unit, f);
    fclose(f);
    thresholds();
    after_a_stream();
    lines();
    one_after_another();
    return 0;
}
