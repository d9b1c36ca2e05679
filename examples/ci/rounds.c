/* A program with a named range, "smooth": rounds N. */
#include <papi.h>
#include <stdlib.h>

enum { CELLS = 4096 };
static double cells[CELLS];

static void smooth(int rounds) {
    for (int round = 0; round < rounds; round++)
        for (int i = 1; i < CELLS - 1; i++)
            cells[i] = (cells[i - 1] + cells[i] + cells[i + 1]) / 3;
}

int main(int count, char **words) {
    cells[CELLS / 2] = 1;
    if (PAPI_hl_region_begin("smooth") != PAPI_OK) return 2;
    smooth(count > 1 ? atoi(words[1]) : 100);
    if (PAPI_hl_region_end("smooth") != PAPI_OK) return 2;
    return cells[1] > 1;
}
