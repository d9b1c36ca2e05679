/* What each access and branch of a program meets in the modelled machine (docs/RECORDING.md).
 * Generated code calls these, when it can't tell by itself that nothing happens. */
#ifndef MODEL_H
#define MODEL_H
#include "block.h"
#include "tape.h"

/* A place in the program at which the machine is asked. */
typedef struct {
    Addr pc;
    UShort size, instruction, side; /* size: of the access, or of the instruction */
    UShort items;                   /* of an access: how many there are */
    /* A load that finds its line in the first level is on the tape. */
    Bool notes_hits;
    Bool stores_too;                /* a load that stores at its place */
    UInt slots[11];                 /* of what the machine does here, 0 for what it did not yet */
    item access[2], line, branch[2]; /* what is on the tape here; a branch is not taken, or is */
} site;
enum { BY_LOAD, BY_STORE, BY_FETCH, BY_BRANCH };

/* What is on the tape was taken from its rooms. Where there is none left, it is noted here. */
void model_sees_access(site *s, Addr address);
/* From the first element that the mask has to the last one. */
void model_sees_masked(site *s, Addr address, ULong mask, ULong width);
void model_sees_fetch(site *s);
void model_sees_branch(site *s, ULong taken, ULong errs); /* errs: it was predicted wrongly */

#endif
