/* A merge sort under tools/count: what its passes store, and what the order of the keys does to the
 * prediction of branches. */
#include "kernels.h"
#include <string.h>

#define KEYS 16384
#define PASSES 14 /* 2 to this power are the keys */

static _Alignas(4096) int keys[KEYS], other[KEYS];

static void merge(const int *left, const int *right, int length, int *into) {
    const int *middle = right, *end = right + length;
    for (int i = 0; i < 2 * length; i++) {
        int is_left = right == end || (left != middle && *left <= *right);
        into[i] = is_left ? *left++ : *right++;
    }
}

/* The pass that merges runs of this length. */
static void pass(int length) {
    for (int at = 0; at < KEYS; at += 2 * length)
        merge(keys + at, keys + at + length, length, other + at);
    memcpy(keys, other, sizeof keys);
}

static void sort(int size) {
    for (int length = 1; length < size; length *= 2) pass(length);
}

static counts sorted(int set) {
    counts made = count(set, sort, KEYS);
    for (int i = 1; i < KEYS; i++) WANT(keys[i - 1] <= keys[i], 1);
    return made;
}

int main(void) {
    int set = make_set();
    unsigned draw = 1;
    for (int i = 0; i < KEYS; i++) {
        draw = draw * 1664525u + 1013904223u;
        keys[i] = (int)(draw >> 8);
    }
    counts drawn = sorted(set), again = sorted(set);
    printf("%d keys in %d passes: %lld operations\n", KEYS, PASSES, drawn.of[OPERATIONS]);
    WANT(drawn.of[STORES] >= (long long)KEYS * PASSES, 1); /* a pass stores each key */
    WANT(drawn.of[MISPREDICTED] > (long long)KEYS * PASSES / 4, 1); /* about half go wrong */
    WANT(again.of[MISPREDICTED] < drawn.of[MISPREDICTED] / 4, 1);
    puts("keys in order are predicted over four times as well");
    return 0;
}
