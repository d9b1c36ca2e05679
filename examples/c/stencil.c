/* A stencil of five points under tools/count: each inner point becomes the mean of its four
 * neighbours. By rows a line of the cache serves eight points, by columns mostly one. */
#include "kernels.h"

#define ROWS 514
#define COLUMNS 512
#define INNER (COLUMNS - 2)

/* They are seen from outside, so that no compiler leaves the work out. */
_Alignas(4096) double from[ROWS][COLUMNS], to[ROWS][COLUMNS];

static inline void point(int i, int j) {
    to[i][j] = 0.25 * (from[i - 1][j] + from[i + 1][j] + from[i][j - 1] + from[i][j + 1]);
}

static void by_rows(int rows) {
    for (int i = 1; i <= rows; i++)
        for (int j = 1; j <= INNER; j++) point(i, j);
}

static void by_columns(int rows) {
    for (int j = 1; j <= INNER; j++)
        for (int i = 1; i <= rows; i++) point(i, j);
}

int main(void) {
    int set = make_set(), rows = ROWS - 2;
    for (int i = 0; i < ROWS; i++)
        for (int j = 0; j < COLUMNS; j++) from[i][j] = i ^ j;
    counts along = count(set, by_rows, rows), down = count(set, by_columns, rows);
    printf("%d points: %lld operations by rows, %lld by columns\n", rows * INNER,
           along.of[OPERATIONS], down.of[OPERATIONS]);
    counts more = count_more(set, by_columns, rows / 2, rows / 2);
    printf("%d more points by columns: %lld loads, %lld stores\n", rows / 2 * INNER,
           more.of[LOADS], more.of[STORES]);
    /* A line of each matrix serves eight points. */
    WANT(along.of[MISSES] > rows * INNER / 4 && along.of[MISSES] < rows * INNER / 3, 1);
    WANT(down.of[MISSES] > 4 * along.of[MISSES], 1);
    puts("by columns it misses over four times as often");
    return 0;
}
