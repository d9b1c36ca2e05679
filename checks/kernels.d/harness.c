/* Runs each kernel over blocks that no cache has, and prints the counts of all kinds: those of the
 * kernel and what stands around it, without those of an empty kernel.
 *
 * Words: KIND PERIOD KIND PERIOD TURN, each a number of twelve digits: thresholds of two kinds of
 * `looked_at`, or none if a period is 0; and the instructions of a turn. What the program does by
 * itself is the same whatever they are. */
#define _GNU_SOURCE
#include "live_requests.h"
#include "live_thread.h"

#include <stdio.h>
#include <stdlib.h>
#include <string.h>

#define BLOCK 1048576
#define OTHER 524288 /* twice the second level, and twice the pages of the translation buffer */
#define WORDS 5
#define MOST_KERNELS 1000
#define RESET 4096
#define PAGE __attribute__((aligned(4096)))

typedef struct {
    const char *name;
    void (*run)(void);
} kernel;
extern const kernel kernels[];
extern void kernel_empty(void);

extern const char first[] __asm__("__start_kistalub_code"), end[] __asm__("__stop_kistalub_code");
#define COLD 65536
PAGE char block_a[BLOCK], block_b[BLOCK], kernel_stack[65536];
PAGE char cold_a[COLD], cold_b[COLD]; /* what no kernel but one has */
static PAGE volatile char other[OTHER];
PAGE char place[4096];
PAGE int ones[1024];
PAGE int steps[8] = {0, 8, 16, 24, 32, 40, 48, 56};
static uint64_t before[KL_KINDS], after[KL_KINDS], stops, turn;
uintptr_t ask_before[6] = {KL_REQUEST + KL_COUNTS, (uintptr_t)before, KL_KINDS},
          ask_after[6] = {KL_REQUEST + KL_COUNTS, (uintptr_t)after, KL_KINDS};
uintptr_t saved_stack;
static const unsigned looked_at[] = {KL_INSTRUCTIONS, KL_CYCLES,          KL_LOADS,
                                     KL_STORES,       KL_L1D_LOAD_MISSES, KL_TAKEN};

void kl_live_stops(uint64_t pc) {
    (void)pc;
    stops++;
    if (turn) kl_ask(KL_TURN, turn, 0, 0);
}

#define ASKS                                                                                       \
    "rolq $3, %%rdi\n rolq $13, %%rdi\n rolq $61, %%rdi\n rolq $51, %%rdi\n xchgq %%rbx, %%rbx\n"

/* The stack's end is in the middle of a page, so that its line is in another set than the first
 * lines of pages. What is counted beside the kernel is in one line, which is the third of a page.
 * Two loops make a small predictor known: each is left with its counter at 3 and then 2, and the
 * second begins behind a branch that was not taken. */
#define WARMS                                                                                      \
    "mov $8, %%ecx\n 1: dec %%ecx\n .p2align 1\n jnz 1b\n"                                         \
    "mov $8, %%ecx\n .p2align 1\n 1: dec %%ecx\n .p2align 1\n nop\n jnz 1b\n"                      \
    ".p2align 12, 0x90\n .skip 100, 0x90\n"

static __attribute__((noinline)) void measure(void (*run)(void)) {
    __asm__ volatile(
        "mov %%rsp, saved_stack(%%rip)\n"
        " lea kernel_stack + 61440 + 2048(%%rip), %%rsp\n mov %0, %%r12\n"
        WARMS "lea ask_before(%%rip), %%rax\n xor %%edx, %%edx\n" ASKS
        "lea block_a(%%rip), %%rsi\n"
        " lea block_b(%%rip), %%rdi\n mov %%rsi, %%r14\n mov %%rdi, %%r13\n"
        "call *%%r12\n"
        "lea ask_after(%%rip), %%rax\n xor %%edx, %%edx\n" ASKS "mov saved_stack(%%rip), %%rsp\n"
        :
        : "r"(run)
        : "rax", "rbx", "rcx", "rdx", "rsi", "rdi", "r8", "r9", "r10", "r11", "r12", "r13", "r14",
          "r15", "cc", "memory", "xmm0", "xmm1", "xmm2", "xmm3", "xmm4", "xmm5", "xmm6", "xmm7");
}

/* Neither block is in the first two levels, nor in the translation buffer. */
static void leave_caches(void) {
    memset(block_a, 0, RESET);
    memset(block_b, 0, RESET);
    for (int i = 0; i < OTHER; i += 64) (void)other[i];
}

static void run(const kernel *k, long counts[KL_KINDS]) {
    const kernel both[3] = {{"empty", kernel_empty}, {"empty", kernel_empty}, *k};
    for (int i = 0; i < 3; i++) {
        leave_caches();
        __asm__ volatile("fninit; vzeroupper");
        measure(both[i].run);
        for (int kind = 0; kind < KL_KINDS; kind++)
            counts[kind] = (long)(after[kind] - before[kind]) - (i == 2 ? counts[kind] : 0);
    }
}

static void print(const kernel *k, const long counts[KL_KINDS]) {
    printf("%s", k->name);
    for (int kind = 0; kind < KL_KINDS; kind++) printf(" %s=%ld", kind_names[kind], counts[kind]);
    printf("\n");
}

static uint64_t number_of(const char *digits) {
    uint64_t number = 0;
    for (int i = 0; i < 12; i++) number = 10 * number + (uint64_t)(digits[i] - '0');
    return number;
}

int main(int count, char **words) {
    static long counts[MOST_KERNELS][KL_KINDS];
    uint64_t numbers[WORDS];
    if (count != WORDS + 1) return 9;
    for (int i = 0; i < WORDS; i++) numbers[i] = number_of(words[i + 1]);
    memset(ones, 255, sizeof ones);
    for (int i = 0; i < BLOCK; i += 64) block_a[i] = block_b[i] = 0; /* the third level has them */
    if (kl_ask(KL_HELLO, (uintptr_t)first, (uintptr_t)end, (uintptr_t)kl_live_stub) != KL_VERSION)
        return 8;
    for (int i = 0; i < 4; i += 2)
        if (!kl_ask(KL_ARM, looked_at[numbers[i]], numbers[i + 1], 0)) return 7;
    kl_ask(KL_TURN, turn = numbers[4], 0, 0);
    for (int i = 0; kernels[i].name && i < MOST_KERNELS; i++) run(kernels + i, counts[i]);
    kl_ask(KL_ENTER, 0, 0, 0);
    for (int i = 0; kernels[i].name && i < MOST_KERNELS; i++) print(kernels + i, counts[i]);
    printf("stops %lu\n", stops);
    return 0;
}
