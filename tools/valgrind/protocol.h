/* What our tool of Valgrind and a library inside the counted program share: the kinds of
 * occurrences, and requests. Only valgrind.h is needed beside it. */
#ifndef PROTOCOL_H
#define PROTOCOL_H

/* What happens in a program (docs/RECORDING.md). */
enum {
    KL_INSTRUCTIONS, KL_CYCLES, KL_STALLS, KL_LOADS, KL_STORES, KL_L1D_LOAD_MISSES,
    KL_L1D_STORE_MISSES, KL_L1I_MISSES,
    KL_L2_LOAD_HITS, KL_L2_STORE_HITS, KL_L2_FETCH_HITS, KL_L2_LOAD_MISSES, KL_L2_STORE_MISSES,
    KL_L2_FETCH_MISSES,
    KL_L3_LOAD_HITS, KL_L3_STORE_HITS, KL_L3_FETCH_HITS, KL_L3_LOAD_MISSES, KL_L3_STORE_MISSES,
    KL_L3_FETCH_MISSES,
    KL_DTLB_LOAD_MISSES, KL_DTLB_STORE_MISSES, KL_ITLB_MISSES, KL_TAKEN, KL_NOT_TAKEN, KL_JUMPS,
    KL_CALLS, KL_RETURNS, KL_MISPREDICTED_TAKEN, KL_MISPREDICTED_NOT_TAKEN,
    KL_SCALAR_DOUBLES, KL_SCALAR_SINGLES, KL_DOUBLES_128, KL_SINGLES_128, KL_DOUBLES_256,
    KL_SINGLES_256, KL_DOUBLES_512, KL_SINGLES_512, KL_X87S,
    /* Of one instruction that locks; over the end of a line of the first level. */
    KL_LOCKED_LOADS, KL_SPLIT_LOADS, KL_SPLIT_STORES,
    /* Operations on each element: additions and subtractions, multiplications, divisions and roots,
     * fused ones, which are two. */
    KL_ADDED_DOUBLES, KL_MULTIPLIED_DOUBLES, KL_DIVIDED_DOUBLES, KL_FUSED_DOUBLES, KL_ADDED_SINGLES,
    KL_MULTIPLIED_SINGLES, KL_DIVIDED_SINGLES, KL_FUSED_SINGLES, KL_KINDS
};

/* VALGRIND_DO_CLIENT_REQUEST_EXPR(0, KL_REQUEST + one of these, a, b, c, d, e). The answer is 0 if
 * the program does not run under the tool. All but HELLO are about the thread that asks. */
#define KL_REQUEST 0x4B4C0000u /* VG_USERREQ_TOOL_BASE('K', 'L') */
enum {
    /* (first, end, stub): the library's code, which is not counted, and where a passed threshold
     * jumps to. Answer: KL_VERSION */
    KL_HELLO,
    /* From here on the thread does the library's work, and neither counts nor changes the
     * machine. */
    KL_ENTER,
    KL_LEAVE,  /* until here */
    /* The thread counts, as it does from its beginning; with the tool's word --stopped it begins
     * when it is told so. */
    KL_START,
    KL_STOP,   /* it does not count, and yet changes the machine */
    KL_COUNTS, /* (counts, n): the first n counts of the thread so far. Answer: 1 */
    /* (kind, period): from now on each `period` occurrences of the kind call the stub; 0 takes that
     * away. Answer: 1, or 0 if there is no such kind */
    KL_ARM,
    KL_PASSED, /* (kl_passed *): what was passed; asked in the stub. Answer: 1 */
    /* The address of the thread's counts while it is not stopped, to be read by plain loads: all
     * but CYCLES, STALLS and the conditional branches. */
    KL_SEE,
    /* (cycles): two numbers: the cycles of all threads so far, whether they counted or not, with
     * those of sleep; and the thread's own. Since version 2. Answer: 1 */
    KL_TIME,
    /* (instructions): where the first block of code begins after so many of the thread's
     * instructions the stub is called, once; 0 takes that away. Since version 3. Answer: 1 */
    KL_TURN,
    KL_END
};
#define KL_VERSION 4

/* kind: KL_KINDS for a turn; pc: the instruction that passed it; next: where the program goes on */
typedef struct { unsigned long kind, pc, next; } kl_passed;

#endif
