/* Libvex looks four times at each block whether it is well formed, for those who write tools. That
 * is a tenth of what a translation takes, so it is done only if it is asked for: by checks. */
#include "libvex.h"

#include "words.h"

typedef void check_of_block(const IRSB *, const HChar *, Bool, IRType);
/* The linker puts this in place of Libvex's own (tools/valgrind/build). */
extern check_of_block __real_sanityCheckIRSB, __wrap_sanityCheckIRSB;

void __wrap_sanityCheckIRSB(const IRSB *block, const HChar *caller, Bool is_flat, IRType word) {
    if (words.checks_blocks) __real_sanityCheckIRSB(block, caller, is_flat, word);
}
