/* A run into an array of fixed room: it stops if a passing more might find no place, and a further
 * run goes on. */
#include "kistalub.h"
#include "wanted.h"
#include <stdlib.h>
#include <string.h>

static const char stream[] =
    "0 c0 00 u 255 1\n0 c0 00 u 255 2\n0 c0 00 u 255 3\n0 c0 00 u 255 4\n"
    "0 c0 00 u 255 5\n0 c0 00 u 255 6\n0 c0 00 u 255 7\n0 c0 00 u 255 8\n";

static unsigned char unit[65536], none[1];

int main(void) {
    kistalub h = KISTALUB_SHUT;
    kistalub_passing passings[33];
    uint32_t set, consumed, left = 8;
    uint64_t told;
    kistalub_fault fault;
    size_t room[] = { 31, 32, 32 };
    FILE *f = fopen(getenv("KISTALUB_UNIT"), "rb");
    if (!f) return 2;
    size_t length = fread(unit, 1, sizeof unit, f);
    fclose(f);
    WANT(kistalub_open(&h, unit, length, none, 0, none, 0, 0, (const unsigned char *)stream,
                       strlen(stream)),
         0);
    WANT(kistalub_create(&h, &set), 0);
    WANT(kistalub_add_named(&h, set, (const unsigned char *)"INST_RETIRED", 12), 0);
    WANT(kistalub_overflow_named(&h, set, (const unsigned char *)"INST_RETIRED", 12, 1000), 0);
    WANT(kistalub_start(&h, set), 0);
    for (int i = 0; i < 3; i++) {
        memset(passings, 0x7f, sizeof passings);
        int code = kistalub_run(&h, left, &consumed, passings, room[i], &told, &fault);
        printf("%d: %u of %u occurrences, %llu passings", code, (unsigned)consumed, (unsigned)left,
               (unsigned long long)told);
        for (uint64_t k = 0; k < told; k++)
            printf(", at 0x%llx", (unsigned long long)passings[k].address);
        puts("");
        WANT(passings[told].set, 0x7f7f7f7f);
        left -= consumed;
    }
    kistalub_close(&h);
    return 0;
}
