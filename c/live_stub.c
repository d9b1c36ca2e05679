/* Where the tool sends a thread between two instructions of the program, when it has passed what it
 * was to stop at. All registers and the 128 bytes below the stack are afterwards as they were. An
 * exception can pass through: the frame is described as that of a signal. */
#include "posix.h"
#include "../tools/valgrind/protocol.h"
#include "live_requests.h"
#include "live_thread.h"

#include <errno.h>
#include <stdint.h>

#if defined __x86_64__
/* What is saved, from the stack's end upwards, and where to go on. */
typedef struct { uint64_t registers[15], flags, next; } stopped;

__attribute__((visibility("hidden"), used)) void kl_live_arrives(stopped *at) {
    int error = errno;
    kl_passed passed = { 0, 0, 0 };
    kl_ask(KL_PASSED, (uintptr_t)&passed, 0, 0);
    at->next = passed.next;
    kl_live_stops(passed.pc);
    errno = error;
    kl_ask(KL_LEAVE, 0, 0, 0);
}

/* 264 bytes: the 17 words of `stopped`, and the 128 bytes. Of the extended state x87, SSE and AVX
 * are saved. */
__asm__(".text\n"
        ".globl kl_live_stub\n.hidden kl_live_stub\n.type kl_live_stub, @function\n"
        "kl_live_stub:\n"
        ".cfi_startproc\n.cfi_signal_frame\n"
        "  lea -136(%rsp), %rsp\n"
        "  pushfq\n"
        "  push %rax\n  push %rcx\n  push %rdx\n  push %rbx\n  push %rbp\n  push %rsi\n"
        "  push %rdi\n  push %r8\n"
        "  push %r9\n  push %r10\n  push %r11\n  push %r12\n  push %r13\n  push %r14\n  push %r15\n"
        "  mov %rsp, %rbp\n"
        ".cfi_def_cfa %rbp, 264\n"
        ".cfi_offset %rip, -136\n.cfi_offset %rax, -152\n.cfi_offset %rcx, -160\n"
        ".cfi_offset %rdx, -168\n.cfi_offset %rbx, -176\n.cfi_offset %rbp, -184\n"
        ".cfi_offset %rsi, -192\n.cfi_offset %rdi, -200\n.cfi_offset %r8, -208\n"
        ".cfi_offset %r9, -216\n.cfi_offset %r10, -224\n.cfi_offset %r11, -232\n"
        ".cfi_offset %r12, -240\n.cfi_offset %r13, -248\n.cfi_offset %r14, -256\n"
        ".cfi_offset %r15, -264\n"
        "  and $-64, %rsp\n"
        "  sub $1088, %rsp\n"
        "  xor %eax, %eax\n"
        "  movq %rax, 512(%rsp)\n  movq %rax, 520(%rsp)\n  movq %rax, 528(%rsp)\n"
        "  movq %rax, 536(%rsp)\n"
        "  movq %rax, 544(%rsp)\n  movq %rax, 552(%rsp)\n  movq %rax, 560(%rsp)\n"
        "  movq %rax, 568(%rsp)\n"
        "  mov $7, %eax\n  xor %edx, %edx\n"
        "  xsave (%rsp)\n"
        "  cld\n"
        "  mov %rbp, %rdi\n"
        "  call kl_live_arrives\n"
        "  mov $7, %eax\n  xor %edx, %edx\n"
        "  xrstor (%rsp)\n"
        "  mov %rbp, %rsp\n"
        "  pop %r15\n  pop %r14\n  pop %r13\n  pop %r12\n  pop %r11\n  pop %r10\n  pop %r9\n"
        "  pop %r8\n"
        "  pop %rdi\n  pop %rsi\n  pop %rbp\n  pop %rbx\n  pop %rdx\n  pop %rcx\n  pop %rax\n"
        "  popfq\n"
        "  ret $128\n"
        ".cfi_endproc\n.size kl_live_stub, . - kl_live_stub\n");
#else
void kl_live_stub(void) {}
#endif
