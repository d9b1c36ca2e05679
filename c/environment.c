/* The variables of the environment. */
#define _GNU_SOURCE
#include "environment.h"
#include "papi.h"

#include <ctype.h>
#include <errno.h>
#include <stdint.h>
#include <stdio.h>
#include <stdlib.h>

/* In a program that runs with another user's rights none is set. */
const char *kl_variable(const char *name) { return secure_getenv(name); }

/* Takes a number of the environment. It stays as it is if the variable is not set. */
int kl_number_named(const char *variable, uint32_t least, uint32_t most, uint32_t *value) {
    const char *digits = kl_variable(variable);
    if (!digits) return PAPI_OK;
    char *end = NULL;
    errno = 0;
    unsigned long long number = isdigit((unsigned char)*digits) ? strtoull(digits, &end, 10) : 0;
    if (!end || *end || errno || number < least || number > most) {
        fprintf(stderr, "papi: %s: not a number from %u to %u: %s\n", variable, (unsigned)least,
                (unsigned)most, digits);
        return PAPI_ESYS;
    }
    *value = (uint32_t)number;
    return PAPI_OK;
}
