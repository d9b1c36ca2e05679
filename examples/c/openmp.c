/* Four threads of OpenMP: each has the stream of its number, in every run. */
#include "papi.h"
#include <omp.h>
#include <stdio.h>

#define THREADS 4

static long long instructions(void) {
    int set = PAPI_NULL;
    long long count = -1;
    if (kistalub_thread((uint32_t)omp_get_thread_num()) != PAPI_OK) return -1;
    if (PAPI_create_eventset(&set) != PAPI_OK) return -2;
    if (PAPI_add_named_event(set, "INST_RETIRED") != PAPI_OK) return -3;
    if (PAPI_start(set) != PAPI_OK) return -4;
    kistalub_go(5, NULL);
    return PAPI_stop(set, &count) == PAPI_OK ? count : -5;
}

int main(void) {
    long long counts[THREADS];
    if (PAPI_library_init(PAPI_VER_CURRENT) != PAPI_VER_CURRENT) return 1;
#pragma omp parallel num_threads(THREADS)
    counts[omp_get_thread_num()] = instructions();
    for (int i = 0; i < THREADS; i++) printf("thread %d: %lld\n", i, counts[i]);
    PAPI_shutdown();
    return 0;
}
