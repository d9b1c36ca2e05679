/* What a program wants of a call: it says which line is not as wanted, and ends with 1. */
#ifndef WANTED_H
#define WANTED_H

#include <stdio.h>
#include <stdlib.h>

/* seconds, also under valgrind, after which a program that waits for ever is ended */
#define PATIENCE 600

#define WANT(call, wanted) \
    do { \
        long long is_ = (call), wanted_ = (wanted); \
        if (is_ != wanted_) { \
            printf("%s:%d: %s is %lld, not %lld\n", __FILE__, __LINE__, #call, is_, wanted_); \
            exit(1); \
        } \
    } while (0)

#endif
