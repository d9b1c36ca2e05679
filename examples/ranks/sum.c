/* Each rank adds its part of a series, and counts what it does for that. With MPI (-DWITH_MPI) the
 * launcher says the rank, and rank 0 has the whole sum; without it the first word does. */
#include <papi.h>
#include <stdio.h>
#include <stdlib.h>
#ifdef WITH_MPI
#include <mpi.h>
#endif

#define TERMS 1000 /* of rank 0; rank R has R + 1 times as many */
#define EVENTS 3

static const char *const events[EVENTS] = {"PAPI_TOT_INS", "PAPI_FP_OPS", "PAPI_BR_INS"};

/* 1 + 1/2 + 1/3 + .. */
__attribute__((noinline)) static double add_terms(int terms) {
    double sum = 0;
    for (int i = 1; i <= terms; i++) sum += 1.0 / i;
    return sum;
}

static double count_terms(int rank) {
    int set = PAPI_NULL;
    long long counts[EVENTS];
    if (PAPI_library_init(PAPI_VER_CURRENT) != PAPI_VER_CURRENT ||
        PAPI_create_eventset(&set) != PAPI_OK)
        exit(2);
    for (int i = 0; i < EVENTS; i++)
        if (PAPI_add_named_event(set, events[i]) != PAPI_OK) exit(3);
    if (PAPI_start(set) != PAPI_OK) exit(4);
    double sum = add_terms(TERMS * (rank + 1));
    if (PAPI_stop(set, counts) != PAPI_OK) exit(5);
    printf("rank %d: %lld instructions, %lld operations, %lld branches\n", rank, counts[0],
           counts[1], counts[2]);
    return sum;
}

int main(int count, char **words) {
#ifdef WITH_MPI
    int rank;
    double part, sum;
    MPI_Init(&count, &words);
    MPI_Comm_rank(MPI_COMM_WORLD, &rank);
    part = count_terms(rank);
    MPI_Reduce(&part, &sum, 1, MPI_DOUBLE, MPI_SUM, 0, MPI_COMM_WORLD);
    if (rank == 0) printf("the sum is %.6f\n", sum);
    MPI_Finalize();
    return 0;
#else
    return count_terms(count > 1 ? atoi(words[1]) : 0) > 0 ? 0 : 1;
#endif
}
