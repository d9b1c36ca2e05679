/* Writes a stream: generate LINES [SEED [KIND]]. KIND is `components`, with occurrences of 16
 * components, or `stamps`, which is of version 2; else it is of version 1, with component 0 alone.
 * The same bytes on every machine. */
#include <stdint.h>
#include <stdio.h>
#include <stdlib.h>
#include <string.h>

int main(int argc, char **argv) {
    static const char *const select[] = {"c0", "3c", "c4", "c5", "2e"};
    unsigned long lines = argc > 1 ? strtoul(argv[1], NULL, 10) : 3200000, stamp = 0;
    uint64_t x = argc > 2 ? strtoul(argv[2], NULL, 10) : 1;
    int has_components = argc > 3 && strcmp(argv[3], "components") == 0;
    int has_stamps = argc > 3 && strcmp(argv[3], "stamps") == 0;
    if (has_stamps) puts("version 2");
    for (unsigned long i = 0; i < lines; i++) {
        x = x * 6364136223846793005u + 1442695040888963407u;
        unsigned a = (unsigned)(x >> 33);
        printf("%u %s %s %c %u %06x", has_components ? a / 3960 / 4096 % 16 : 0, select[a % 5],
               (a / 5) % 2 ? "01" : "02", (a / 10) % 4 ? 'u' : 'k', 1 + (a / 40) % 99,
               0x400000 + (a / 3960) % 4096);
        stamp += 1 + (a >> 3) % 3;
        if (has_stamps) printf(" %lu", stamp);
        putchar('\n');
    }
    return fflush(stdout) == 0 ? 0 : 1;
}
