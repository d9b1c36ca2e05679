#include "totals.h"

#include "pub_tool_clientstate.h"
#include "pub_tool_libcassert.h"
#include "pub_tool_libcbase.h"
#include "pub_tool_libcfile.h"
#include "pub_tool_libcprint.h"
#include "pub_tool_mallocfree.h"
#include "pub_tool_vki.h"
#include "pub_tool_xarray.h"

#include "block.h"
#include "frames.h"
#include "output.h"
#include "profile.h"
#include "requests.h"
#include "turns.h"
#include "words.h"

#define LONGEST_LINE 4096
#define PROCESS_WORD "--process="
#define GATHERED 65536

typedef struct {
    UInt number, last; /* last: the instructions of the block that ran last */
    ULong counts[ALL_KINDS];
} thread_totals;

/* Threads that are no more; and what those of a parent did before this process was forked. */
static XArray *ended, *before;
static HChar *process;
static UInt children, forks; /* forks: also those that failed */
static Int file = -1;

static void put_line(const HChar *format, ...) __attribute__((format(printf, 1, 2)));
static void put_line(const HChar *format, ...) {
    HChar line[LONGEST_LINE];
    va_list arguments;
    va_start(arguments, format);
    UInt length = VG_(vsnprintf)(line, sizeof line - 1, format, arguments);
    va_end(arguments);
    if (length > sizeof line - 2) length = sizeof line - 2;
    line[length++] = '\n';
    if (VG_(write)(file, line, (Int)length) != (Int)length) fail("the counts can't be written");
}

static void put_program(void) {
    HChar path[LONGEST_LINE];
    UInt used = 0;
    const HChar *from = VG_(args_the_exename) ? VG_(args_the_exename) : "";
    for (; *from && used + sizeof "\\xff" < sizeof path - sizeof "program "; from++) {
        UChar byte = (UChar)*from;
        if (byte > ' ' && byte < 127 && byte != '\\') path[used++] = *from;
        else used += VG_(sprintf)(path + used, "\\x%02x", byte);
    }
    path[used] = 0;
    put_line("program %s", path);
}

/* A program that takes the place of this one is told which process it is, and how many it made. */
static void tell_next_program(void) {
    for (Word i = 0; i < VG_(sizeXA)(VG_(args_for_valgrind)); i++) {
        HChar **word = VG_(indexXA)(VG_(args_for_valgrind), i);
        if (VG_(strncmp)(*word, PROCESS_WORD, VG_(strlen)(PROCESS_WORD))) continue;
        HChar *now = VG_(malloc)("totals", VG_(strlen)(PROCESS_WORD) + VG_(strlen)(process) + 32);
        VG_(sprintf)(now, PROCESS_WORD "%s,%u,%u", process, forks, children);
        *word = now;
    }
}

/* The word is NAME, or NAME,FORKS,CHILDREN. */
static void read_process(void) {
    process = VG_(strdup)("totals", words.process);
    HChar *rest = VG_(strchr)(process, ',');
    if (!rest) return;
    *rest++ = 0;
    forks = (UInt)VG_(strtoll10)(rest, &rest);
    if (*rest == ',') children = (UInt)VG_(strtoll10)(rest + 1, NULL);
}

static void open_file(void) {
    HChar *name = VG_(malloc)("totals", VG_(strlen)(words.totals) + VG_(strlen)(process) + 2);
    VG_(sprintf)(name, "%s/%s", words.totals, process);
    Int opened = VG_(fd_open)(name, VKI_O_WRONLY | VKI_O_CREAT | VKI_O_APPEND, 0600);
    if (opened < 0) fail("the counts can't be written");
    file = VG_(safe_fd)(opened);
    VG_(free)(name);
}

void totals_begin(void) {
    if (!words.totals) return;
    ended = VG_(newXA)(VG_(malloc), "totals", VG_(free), sizeof(thread_totals));
    before = VG_(newXA)(VG_(malloc), "totals", VG_(free), sizeof(thread_totals));
    read_process();
    open_file();
    put_program();
}

static void put_thread(const thread_totals *t) {
    for (UInt i = 0; i < ALL_KINDS; i++)
        if ((t->counts[i] && kind_names[i] && counts_kind(i)) || i == KL_INSTRUCTIONS)
            put_line("thread %u %s %llu", t->number, kind_names[i], t->counts[i]);
    if (words.has_further) put_line("thread %u last %u", t->number, t->last);
}

static thread_totals totals_of(const core *c) {
    thread_totals t = {.number = c->number, .last = c->at ? c->at->count : 0};
    frames_counts(c, t.counts);
    for (Word i = 0; i < VG_(sizeXA)(before); i++) {
        const thread_totals *b = VG_(indexXA)(before, i);
        if (b->number != t.number) continue;
        for (UInt kind = 0; kind < ALL_KINDS; kind++) t.counts[kind] -= b->counts[kind];
    }
    return t;
}

void totals_of_thread(ThreadId tid) {
    core *c = core_of(tid);
    if (file < 0 || !c) return;
    frames_end(c);
    thread_totals t = totals_of(c);
    VG_(addToXA)(ended, &t);
}

/* -- the profile -- */

static HChar *gathered;
static UInt gathered_length;

static void write_gathered(void) {
    Int length = (Int)gathered_length;
    if (length && VG_(write)(file, gathered, length) != length)
        fail("the counts can't be written");
    gathered_length = 0;
}

static void gather(const HChar *text) {
    UInt length = (UInt)VG_(strlen)(text);
    if (gathered_length + length > GATHERED) write_gathered();
    VG_(memcpy)(gathered + gathered_length, text, length);
    gathered_length += length;
}

static void settle_all(Bool adds) {
    for (ThreadId tid = 1; tid < VG_N_THREADS; tid++)
        if (core_of(tid)) frames_settle(core_of(tid), adds);
}

static void put_profile(void) {
    if (!words.has_profile) return;
    if (!gathered) gathered = VG_(malloc)("totals", GATHERED);
    settle_all(True);
    profile_writes(gather);
    write_gathered();
    settle_all(False);
}

static void put_all(void) {
    for (Word i = 0; i < VG_(sizeXA)(ended); i++) put_thread(VG_(indexXA)(ended, i));
    for (ThreadId tid = 1; tid < VG_N_THREADS; tid++) {
        const core *c = core_of(tid);
        if (!c) continue;
        thread_totals t = totals_of(c);
        put_thread(&t);
    }
    for (UInt i = 0; i < functions_names(); i++)
        put_line("function %u %llu", i, functions_calls(i));
    put_line("calls %llu\nchildren %u", calls_made(), children);
    if (undetermined_by() >= 0) put_line("undetermined %d", undetermined_by());
    put_profile();
}

void totals_before_fork(ThreadId tid) {
    (void)tid;
    forks++;
}

void totals_of_parent(void) { children++; }

/* A child begins at 0, and has no thread but its own. */
void totals_of_child(void) {
    if (file < 0) return;
    HChar *now = VG_(malloc)("totals", VG_(strlen)(process) + 12);
    VG_(sprintf)(now, "%s.%u", process, forks);
    VG_(free)(process);
    process = now;
    forks = children = 0;
    functions_forget_calls();
    profile_forgets();
    for (ThreadId tid = 1; tid < VG_N_THREADS; tid++)
        if (core_of(tid)) frames_begin_anew(core_of(tid));
    VG_(close)(file);
    VG_(dropTailXA)(ended, VG_(sizeXA)(ended));
    VG_(dropTailXA)(before, VG_(sizeXA)(before));
    for (ThreadId tid = 1; tid < VG_N_THREADS; tid++) {
        const core *c = core_of(tid);
        if (!c) continue;
        thread_totals t = {.number = c->number};
        frames_counts(c, t.counts);
        VG_(addToXA)(before, &t);
    }
    open_file();
    put_program();
}

void totals_before_exec(void) {
    if (file < 0) return;
    put_all();
    put_line("exec");
    tell_next_program();
}

void totals_stay(void) {
    if (file >= 0) put_line("stays");
}

void totals_end(void) {
    if (file < 0) return;
    put_all();
    put_line("ended");
}

void totals_refuse(void) {
    put_line("refused");
    VG_(exit)(1);
}
