/* A loop over 1 MiB with loads, stores, a branch that depends on the data, and a double: so many
 * turns, 65536 steps each. With the number of a kind of our tool of Valgrind a threshold of it is
 * set, which is not passed. */
#include <stdint.h>
#include <stdio.h>
#include <stdlib.h>
#include <valgrind/valgrind.h>

#include "../tools/valgrind/protocol.h"

#define STEPS 65536
#define BILLION 1000000000UL

static unsigned numbers[STEPS];
static double sums[STEPS];

/* Where a passed threshold goes: none is. */
static void passed(void) { exit(1); }

static void arm(int kind) {
    uintptr_t at = (uintptr_t)passed;
    VALGRIND_DO_CLIENT_REQUEST_STMT(KL_REQUEST + KL_HELLO, at, at + 1, at, 0, 0);
    VALGRIND_DO_CLIENT_REQUEST_STMT(KL_REQUEST + KL_ARM, kind, BILLION * BILLION, 0, 0, 0);
}

int main(int count, char **words) {
    int turns = count > 1 ? atoi(words[1]) : 40;
    unsigned x = 1, odd = 0;
    if (count > 2) arm(atoi(words[2]));
    for (int turn = 0; turn < turns; turn++)
        for (int i = 0; i < STEPS; i++) {
            x = x * 1664525u + 1013904223u;
            numbers[i] += x >> 16;
            if (numbers[i] & 1) odd++;
            sums[i * 17 % STEPS] += numbers[i] * 0.5;
        }
    double sum = 0;
    for (int i = 0; i < STEPS; i++) sum += sums[i];
    printf("%u %g\n", odd, sum);
}
