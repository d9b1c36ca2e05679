/* A program without a library: it fills eight lines of 64 bytes, and reads one byte of each twice.
 * The sum of these is 1,536. */
static volatile unsigned char block[512] __attribute__((aligned(64)));

__attribute__((noinline)) void fill(void) {
    for (int i = 0; i < 512; i++)
        block[i] = (unsigned char)i;
}

__attribute__((noinline)) int look(void) {
    int sum = 0;
    for (int turn = 0; turn < 2; turn++)
        for (int i = 0; i < 512; i += 64)
            sum += block[i];
    return sum;
}

void _start(void) {
    fill();
    int status = look() == 1536 ? 0 : 3;
    __asm__ volatile("syscall" : : "a"(60), "D"(status));
    __builtin_unreachable();
}
