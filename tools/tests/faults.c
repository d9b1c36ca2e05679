/* Faults in the midst of a straight line of instructions, by the number of the signal that is its
 * word. */
#define _GNU_SOURCE
#include <setjmp.h>
#include <signal.h>
#include <stdlib.h>
#include <sys/mman.h>
#include <unistd.h>
__asm__(".globl fault; .type fault, @function; fault: .rept 10; nop; .endr; movl $1,(%rdi);"
        "xor %eax,%eax; xor %edx,%edx; nop; divl (%rsi); ret; .size fault, .-fault");
extern void fault(int *place, const int *by);
static sigjmp_buf back;
static void on(int n) {
    (void)n;
    siglongjmp(back, 1);
}
int main(int count, char **words) {
    const int number = atoi(words[count - 1]), by = 0;
    static int place;
    int *beyond = mmap(NULL, 8192, PROT_READ | PROT_WRITE, MAP_SHARED, memfd_create("empty", 0), 0);
    signal(number, on);
    if (!sigsetjmp(back, 1))
        fault(number == SIGSEGV ? (int *)8 : number == SIGBUS ? beyond : &place, &by);
    return 0;
}
