#include "events.h"

#include "pub_tool_aspacemgr.h"
#include "pub_tool_libcbase.h"
#include "pub_tool_libcprint.h"
#include "pub_tool_libcproc.h"
#include "pub_tool_libcassert.h"
#include "pub_tool_machine.h"
#include "pub_tool_vki.h"
#include "pub_tool_vkiscnums.h"

#include "block.h"
#include "calls.h"
#include "clocks.h"
#include "code.h"
#include "core.h"
#include "decode.h"
#include "functions.h"
#include "output.h"
#include "profile.h"
#include "requests.h"
#include "tape.h"
#include "thresholds.h"
#include "totals.h"
#include "turns.h"
#include "words.h"

/* What the system tells a program beside its stack (elf.h). */
enum { AT_NULL = 0, AT_ENTRY = 9, AT_RANDOM = 25 };

#define PADDING "KISTALUB_PADDING="
#define RANDOM_BYTES 16
#define LONGEST_PATH 4096 /* the system takes no longer one */
#define FIRST_BYTES 4
#define LONGEST_LINE 200

/* -- the program's beginning -- */

/* The random bytes that the system gives are other ones each time, and so is their address. Their
 * place is taken by bytes of the environment's padding. */
static void fix_random_bytes(UWord *word, HChar *const *environment) {
    for (; *environment; environment++)
        if (!VG_(strncmp)(*environment, PADDING, VG_(strlen)(PADDING)) &&
            VG_(strlen)(*environment) >= VG_(strlen)(PADDING) + RANDOM_BYTES)
            *word = (UWord)(*environment + VG_(strlen)(PADDING));
}

/* Reads the stack as it is before the first instruction: the words, the environment, and what the
 * system tells. Gives the program's entry. */
static Addr read_stack(const UWord *at) {
    Addr entry = 0;
    UWord count = *at++;
    at += count + 1;
    HChar *const *environment = (HChar *const *)at;
    while (*at++) {}
    for (UWord *pair = (UWord *)at; pair[0] != AT_NULL; pair += 2) {
        if (pair[0] == AT_ENTRY) entry = pair[1];
        if (pair[0] == AT_RANDOM && !words.keeps_random) fix_random_bytes(pair + 1, environment);
    }
    return entry;
}

void program_is_loaded(void) {
    static Bool is_known;
    if (is_known) return;
    is_known = True;
    ThreadId tid = VG_(get_running_tid)();
    Addr entry = read_stack((const UWord *)VG_(get_SP)(tid)),
         base = words.entry ? entry - words.entry : 0;
    streams_begin(base);
    if (words.from_entry) counting_from = entry;
    functions_begin(entry);
    if (words.from) counting_from = words.from + base;
}

void program_goes_on(ThreadId tid, ULong blocks) {
    (void)blocks;
    program_is_loaded();
    close_code_is_made();
    running = tid;
    set_current(tid);
}

/* -- threads -- */

static void print_totals(const core *c) {
    ULong counts[ALL_KINDS];
    core_counts(c, counts);
    for (UInt i = 0; i < ALL_KINDS; i++)
        if (counts[i] && kind_names[i])
            VG_(umsg)("thread %u %s %llu\n", c->number, kind_names[i], counts[i]);
}

void thread_begins(ThreadId parent, ThreadId tid) {
    if (tid > 1 && words.threads == ONE_THREAD && counting_has_begun()) {
        report("thread");
        VG_(exit)(1);
    }
    core_thread_begins(tid);
    turns_thread_begins(parent, tid);
    clocks_thread_begins(parent, tid);
    calls_thread_begins(tid);
}

void thread_ends(ThreadId tid) {
    if (words.shows_totals && core_of(tid)) print_totals(core_of(tid));
    totals_of_thread(tid);
    calls_thread_ends(tid);
    turns_thread_ends(tid);
    core_thread_ends(tid);
}

/* -- other processes -- */

static void child_is_made(ThreadId tid) {
    (void)tid;
    totals_of_parent();
}

/* A child counts on by itself, but what its parent writes is not its own. */
static void child_begins(ThreadId tid) {
    outputs_close();
    calls_of_child(tid);
    totals_of_child();
    if (words.stream >= 0 || words.streams) counting_ends();
}

static Bool is_exec(UInt number) { return number == __NR_execve || number == __NR_execveat; }

/* The program's text at an address: False if it is not all there. */
static Bool read_text(Addr from, HChar *to, SizeT size) {
    for (SizeT i = 0; i < size; i++, from++) {
        if ((!i || !(from & (VKI_PAGE_SIZE - 1))) &&
            !VG_(am_is_valid_for_client)(from, 1, VKI_PROT_READ))
            return False;
        to[i] = *(const HChar *)from;
        if (!to[i]) return True;
    }
    return False;
}

static void tell_exec(Addr path) {
    HChar text[LONGEST_PATH];
    if (read_text(path, text, sizeof text)) report("exec %s", text);
}

/* If another program takes the place of this one, nothing more is known of it. */
void system_call_begins(ThreadId tid, UInt number, UWord *arguments, UInt count) {
    (void)count;
    clocks_call_begins(tid, number, arguments);
    calls_begins(tid, number, arguments);
    if (!is_exec(number)) return;
    core *c = core_of(tid);
    if (c && c->tape) tape_flushes(c);
    totals_before_exec();
    tell_exec(arguments[number == __NR_execveat]);
}

void system_call_ended(ThreadId tid, UInt number, UWord *arguments, UInt count, SysRes result) {
    (void)count;
    clocks_call_ended(tid, number, arguments, result);
    calls_ended(tid, number, arguments, result);
    if (!is_exec(number)) return;
    totals_stay();
    report("exec");
}

/* -- faults and memory -- */

/* A fault in the middle of a block: what was run of it since its last exit is counted here. */
static void count_up_to(core *c, const block *b, Addr pc) {
    UInt number = 0;
    while (number < b->count && b->instructions[number].pc != pc) number++;
    if (number == b->count) return;
    UInt segment = b->instructions[number].segment;
    for (UInt i = 0; i < b->shares_count; i++)
        if (b->shares[i].segment == segment && b->shares[i].instruction < number) {
            const share *s = b->shares + i;
            core_takes(c, s->kind, s->amount);
            profile_adds(c, s->instruction, s->kind, (ULong)(Long)s->amount);
        }
    if (c->tape) tape_sees_fault(c, b, number);
}

void signal_comes(ThreadId tid, Int number, Bool is_on_other_stack) {
    core *c = core_of(tid);
    (void)is_on_other_stack;
    if (!c || current != c || !c->at) return;
    if (number == VKI_SIGSEGV || number == VKI_SIGBUS || number == VKI_SIGFPE)
        count_up_to(c, c->at, VG_(get_IP)(tid));
}

void forget_block(Addr first, VexGuestExtents extents) {
    (void)extents;
    block_forget(first);
}

void instruction_is_refused(Addr pc) {
    static Bool is_told;
    UChar bytes[FIRST_BYTES] = {0};
    for (Addr i = 0; i < FIRST_BYTES && VG_(am_is_valid_for_client)(pc + i, 1, VKI_PROT_READ); i++)
        bytes[i] = ((const UChar *)pc)[i];
    if (is_told || is_undefined_by_intent(bytes)) return;
    is_told = True;
    const HChar *form = is_of_avx512(bytes) ? "the instruction at 0x%lx is one of AVX-512, which "
                                              "Valgrind does not have: compile with -mno-avx512f"
                                            : "Valgrind does not have the instruction at 0x%lx";
    HChar line[LONGEST_LINE];
    VG_(snprintf)(line, sizeof line, form, pc);
    if (words.report >= 0) report("refused %s", line);
    else VG_(printf)("papi: %s\n", line);
}

/* -- the end -- */

static void tell_totals(void) {
    const ULong *totals = tape_totals();
    for (UInt kind = 0; kind < KL_KINDS; kind++)
        report("total %s %llu", kind_names[kind], totals[kind]);
    if (words.has_further) {
        ULong counts[ALL_KINDS];
        all_counts(counts);
        for (UInt kind = LOCKED; kind < ALL_KINDS; kind++)
            report("total %s %llu", kind_names[kind], counts[kind]);
    }
    report("calls %llu", calls_made());
    report("from %d", counting_has_begun());
}

void events_begin(void) { VG_(atfork)(totals_before_fork, child_is_made, child_begins); }

void events_end(Int status) {
    (void)status;
    for (ThreadId tid = 1; tid < VG_N_THREADS; tid++) {
        core *c = core_of(tid);
        if (!c) continue;
        if (words.shows_totals) print_totals(c);
        if (c->tape) tape_ends(c);
    }
    if (words.has_tape) tell_totals();
    totals_end();
}
