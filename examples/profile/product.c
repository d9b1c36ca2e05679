/* A product of two matrices, by rows and by columns. Both give the same result. */
#include <stdio.h>

#define SIZE 40

static double left[SIZE][SIZE], right[SIZE][SIZE], rows[SIZE][SIZE], columns[SIZE][SIZE];

static void fill(void) {
    for (int i = 0; i < SIZE; i++)
        for (int j = 0; j < SIZE; j++) {
            left[i][j] = i + j;
            right[i][j] = i - j;
        }
}

/* The inner loop goes along rows of `right` and of the result. */
__attribute__((noinline)) void by_rows(void) {
    for (int i = 0; i < SIZE; i++)
        for (int k = 0; k < SIZE; k++)
            for (int j = 0; j < SIZE; j++)
                rows[i][j] += left[i][k] * right[k][j];
}

/* The inner loop goes down columns of `left` and of the result. */
__attribute__((noinline)) void by_columns(void) {
    for (int j = 0; j < SIZE; j++)
        for (int k = 0; k < SIZE; k++)
            for (int i = 0; i < SIZE; i++)
                columns[i][j] += left[i][k] * right[k][j];
}

int main(void) {
    fill();
    by_rows();
    by_columns();
    for (int i = 0; i < SIZE; i++)
        for (int j = 0; j < SIZE; j++)
            if (rows[i][j] != columns[i][j])
                return 1;
    printf("%g\n", rows[1][2]);
    return 0;
}
