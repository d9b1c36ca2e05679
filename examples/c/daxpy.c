/* DAXPY, y = a x + y, under tools/count: what further elements cost, also with a stride of a line
 * of the cache. */
#include "kernels.h"

#define SIZE 8192
#define MORE 65536
#define STRIDE 8 /* doubles in a line */

/* They are seen from outside, so that no compiler leaves the work out. */
_Alignas(4096) double x[SIZE + MORE], y[SIZE + MORE];
static double a = 3;

static void daxpy(int size) {
    double factor = a;
    for (int i = 0; i < size; i++) y[i] = factor * x[i] + y[i];
}

static void strided(int size) {
    double factor = a;
    for (int i = 0; i < size; i += STRIDE) y[i] = factor * x[i] + y[i];
}

static void show(const char *name, counts made, long long elements) {
    /* Of both arrays, and a few that are there still, or not. */
    long long lines = 2 * MORE / STRIDE;
    WANT(llabs(made.of[MISSES] - lines) <= 8, 1);
    printf("%s, %lld more elements: %lld loads, %lld stores, %lld operations, ", name, elements,
           made.of[LOADS], made.of[STORES], made.of[OPERATIONS]);
    printf("a miss for each of %lld lines\n", lines);
}

int main(void) {
    int set = make_set();
    for (int i = 0; i < SIZE + MORE; i++) x[i] = i;
    show("daxpy", count_more(set, daxpy, SIZE, MORE), MORE);
    show("strided", count_more(set, strided, SIZE, MORE), MORE / STRIDE);
    return 0;
}
