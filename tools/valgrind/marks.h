/* Marks of accesses in a block's code, from before Valgrind optimises it until the code that counts
 * takes their places. */
#ifndef MARKS_H
#define MARKS_H
#include "code.h"

/* A block has none. */
void marks_begin(void);

void put_mark(IRSB *out, const access *a);

/* Whether a statement of the block's code is a mark, and the access that it tells of. A mask stands
 * before the access that it belongs to, and has no access itself. */
Bool marks_access(const IRStmt *s, access *a);

#endif
