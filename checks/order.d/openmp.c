/* A loop that four threads share out as SCHEDULE says. */
#include <stdio.h>

int main(void) {
    long sum = 0;
#pragma omp parallel for schedule(SCHEDULE) reduction(+ : sum) num_threads(4)
    for (int i = 0; i < 200; i++)
        for (volatile int j = 0; j < i; j++) sum += j;
    printf("%ld\n", sum);
    return 0;
}
