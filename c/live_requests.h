/* What the library asks of the tool that counts a program while it runs (tools/valgrind). */
#ifndef KL_LIVE_REQUESTS_H
#define KL_LIVE_REQUESTS_H

#include "../tools/valgrind/protocol.h"

#include <stdint.h>

/* A request to the tool: its answer, or 0 if there is none. */
static inline uintptr_t kl_ask(unsigned request, uintptr_t first, uintptr_t second,
                               uintptr_t third) {
#if defined __x86_64__
    /* Valgrind's own sequence, which does nothing on a processor. */
    volatile uintptr_t words[6] = { KL_REQUEST + request, first, second, third, 0, 0 };
    uintptr_t answer = 0;
    __asm__ volatile("rolq $3, %%rdi\n\trolq $13, %%rdi\n\trolq $61, %%rdi\n\trolq $51, "
                     "%%rdi\n\txchgq %%rbx, %%rbx"
                     : "+d"(answer)
                     : "a"(words)
                     : "cc", "memory", "rdi");
    return answer;
#else
    (void)request, (void)first, (void)second, (void)third;
    return 0;
#endif
}

#endif
