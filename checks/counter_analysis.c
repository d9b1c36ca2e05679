/* Runs the branch kernels and the floating-point kernels of PAPI's counter analysis toolkit for
 * each event: DIRECTORY/ EVENT... A file in the directory has what each kernel counts. */
#include <papi.h>
#include <stdio.h>

#include "branch.h"
#include "flops.h"

#define JUNK 7 /* what the kernels draw numbers from; not 0 */

int main(int count, char **words) {
    if (count < 3 || PAPI_library_init(PAPI_VER_CURRENT) != PAPI_VER_CURRENT) return 1;
    for (int i = 2; i < count; i++) {
        branch_driver(words[i], JUNK, 0, words[1]);
        flops_driver(words[i], 0, words[1]);
    }
    return 0;
}
