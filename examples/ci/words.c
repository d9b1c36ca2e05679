/* Sorts words: a program without a call of PAPI. With ANY_CASE it takes no notice of their case,
 * which is the change that is judged. */
#include <stdio.h>
#include <stdlib.h>
#include <string.h>
#include <strings.h>

enum { WORDS = 5000, ROOM = 16 };
static char words[WORDS][ROOM];

static int compare(const void *one, const void *other) {
#ifdef ANY_CASE
    return strcasecmp(one, other);
#else
    return strcmp(one, other);
#endif
}

int main(void) {
    unsigned seed = 1;
    for (int i = 0; i < WORDS; i++) {
        seed = seed * 1103515245u + 12345u;
        snprintf(words[i], ROOM, "%c%08x", i % 2 ? 'w' : 'W', seed);
    }
    qsort(words, WORDS, ROOM, compare);
    puts(words[0]);
    return 0;
}
