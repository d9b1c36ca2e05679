/* The kinds of occurrences that the tool knows beside those of the protocol, and the names of
 * all. */
#ifndef KINDS_H
#define KINDS_H
#include "protocol.h"

enum {
    /* loads that are no KL_L1D_LOAD_MISSES; noted one by one if they have a code */
    LOAD_HITS = KL_KINDS,
    LINE_KINDS,           /* all kinds up to here have lines */
    /* A conditional branch is counted before its outcome is known, and put right afterwards. */
    LEFT_TAKEN = LINE_KINDS, /* it leaves its block if it is taken */
    STAYED_NOT_TAKEN,      /* and did not */
    LEFT_NOT_TAKEN,        /* it leaves its block if it is not taken */
    STAYED_TAKEN,          /* and did not */
    /* What other tools count in another way. */
    LOCKED,   /* instructions that change memory in one piece */
    REPEATED, /* instructions that repeat themselves */
    TURNS,    /* their turns */
    MODIFIES, /* accesses that are a load and a store */
    /* Conditional branches by their outcome and by what was predicted, if the code counts them so:
     * it adds the outcome, and 2 if the predictor was wrong. */
    RIGHT_NOT_TAKEN, RIGHT_TAKEN, WRONG_NOT_TAKEN, WRONG_TAKEN,
    ALL_KINDS
};

extern const char *const kind_names[ALL_KINDS];

/* The native events that one occurrence of a kind is of, all of component 0 and in user mode
 * (docs/FORMATS.md). No two of them have the same select code. */
#define MOST_CODES 8
typedef struct { unsigned char select, umask; } event_code;
typedef struct { unsigned count; event_code of[MOST_CODES]; } kind_codes;
#define CODE_FORMAT "0 %02x %02x u" /* of it in a line, up to the amount */
typedef kind_codes all_codes[LINE_KINDS];

/* Those of examples/recorded.unit. */
extern const all_codes recorded_codes;

/* Reads codes: `KIND:SSUU+SSUU,..`, a select code and a umask in hexadecimal digits for each. A
 * kind that is not named has none. Gives whether they are right. */
int read_codes(const char *text, all_codes to);

#endif
