/* A dot product, and a product of two matrices, plain and in blocks: what each costs, as PAPI
 * counts it. */
#include <papi.h>
#include <stdio.h>
#include <stdlib.h>

#define SIZE 64
#define BLOCK 8
#define EVENTS 4

static const char *const events[EVENTS] = { "PAPI_TOT_INS", "PAPI_LD_INS", "PAPI_L1_DCM",
                                            "PAPI_FP_OPS" };

/* Each matrix begins at a page, so that the misses are the same wherever the program is loaded. */
static _Alignas(4096) double left[SIZE][SIZE], right[SIZE][SIZE], result[SIZE][SIZE];

static void dot(void) {
    double sum = 0;
    for (int i = 0; i < SIZE; i++)
        for (int j = 0; j < SIZE; j++) sum += left[i][j] * right[i][j];
    result[0][0] = sum;
}

static void plain(void) {
    for (int i = 0; i < SIZE; i++)
        for (int j = 0; j < SIZE; j++) {
            double sum = 0;
            for (int k = 0; k < SIZE; k++) sum += left[i][k] * right[k][j];
            result[i][j] = sum;
        }
}

/* The same sums, in another order: a block of `right` stays in the cache while it is used. */
static void blocked(void) {
    for (int i = 0; i < SIZE; i++)
        for (int j = 0; j < SIZE; j++) result[i][j] = 0;
    for (int k0 = 0; k0 < SIZE; k0 += BLOCK)
        for (int j0 = 0; j0 < SIZE; j0 += BLOCK)
            for (int i = 0; i < SIZE; i++)
                for (int j = j0; j < j0 + BLOCK; j++) {
                    double sum = result[i][j];
                    for (int k = k0; k < k0 + BLOCK; k++) sum += left[i][k] * right[k][j];
                    result[i][j] = sum;
                }
}

static void count(int set, const char *name, void (*work)(void)) {
    long long counts[EVENTS];
    if (PAPI_start(set) != PAPI_OK) exit(4);
    work();
    if (PAPI_stop(set, counts) != PAPI_OK) exit(5);
    printf("%-8s %12lld %10lld %10lld %10lld %8.2f\n", name, counts[0], counts[1], counts[2],
           counts[3], counts[1] ? (double)counts[3] / (double)counts[1] : 0.0);
}

int main(void) {
    int set = PAPI_NULL;
    if (PAPI_library_init(PAPI_VER_CURRENT) != PAPI_VER_CURRENT ||
        PAPI_create_eventset(&set) != PAPI_OK)
        return 2;
    for (int i = 0; i < EVENTS; i++)
        if (PAPI_add_named_event(set, events[i]) != PAPI_OK) return 3;
    for (int i = 0; i < SIZE; i++)
        for (int j = 0; j < SIZE; j++) {
            left[i][j] = i + j;
            right[i][j] = i - j;
        }
    printf("%-8s %12s %10s %10s %10s %8s\n", "", "instructions", "loads", "misses", "operations",
           "per load");
    count(set, "dot", dot);
    count(set, "plain", plain);
    count(set, "blocked", blocked);
    return 0;
}
