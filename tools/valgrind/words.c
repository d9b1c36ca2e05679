#include "words.h"

#include "pub_tool_libcbase.h"
#include "pub_tool_libcprint.h"
#include "pub_tool_options.h"

#include "functions.h"

#define MOST_WINDOW (1LL << 40)
#define MOST_MHZ 1000000
#define NO_LIMIT 0x3fffffff
#define MOST_BITS ((Long)(~0ULL >> 1)) /* of a number that VG_BHEX_CLO takes */
_Static_assert(ALL_KINDS < 64, "each kind has a bit of MOST_BITS");

/* The machine is tools/record's `skl`. */
all_words words = {
    .has_counts = True, .process = "1", .kinds = ~0UL,
    .threads = ANY_THREAD, .stream = -1, .report = -1, .window = 65536, .most_amount = 255,
    .codes = recorded_codes,
    .l1d = {512, 8, 64}, .l1i = {512, 8, 64}, .l2 = {4096, 4, 64}, .l3 = {131072, 16, 64},
    .dtlb = {64, 4, 4096}, .itlb = {128, 8, 4096},
    .mhz = 1000, .predictor_bits = 14, .costs = {8, 38, 200, 20, 16},
};

/* Numbers with commas between them. */
static Bool read_numbers(const HChar *text, ULong *to, UInt count) {
    for (UInt i = 0; i < count; i++) {
        HChar *end;
        to[i] = VG_(strtoull10)(text, &end);
        if (end == text || *end != (i + 1 < count ? ',' : 0)) return False;
        text = end + 1;
    }
    return True;
}

static Bool read_shape(const HChar *text, shape *to) {
    ULong numbers[3] = {0};
    if (VG_(strcmp)(text, "none") && !read_numbers(text, numbers, 3)) return False;
    *to = (shape){numbers[0], numbers[1], numbers[2]};
    return !to->lines || shape_is_right(to);
}

/* `--NAME=LINES,WAYS,BYTES` or `--NAME=none`. */
static Bool take_shape(const HChar *word) {
    const struct {
        const HChar *name;
        shape *to;
    } shapes[] = {{"--l1d=", &words.l1d}, {"--l1i=", &words.l1i},   {"--l2=", &words.l2},
                  {"--l3=", &words.l3},   {"--dtlb=", &words.dtlb}, {"--itlb=", &words.itlb}};
    for (UInt i = 0; i < sizeof shapes / sizeof *shapes; i++) {
        SizeT length = VG_(strlen)(shapes[i].name);
        if (VG_(strncmp)(word, shapes[i].name, length)) continue;
        if (!read_shape(word + length, shapes[i].to))
            VG_(fmsg_bad_option)(word, "LINES,WAYS,BYTES or none\n");
        return True;
    }
    return False;
}

static Bool take_costs(const HChar *word) {
    const HChar *text;
    if (!VG_STR_CLO(word, "--costs", text)) return False;
    Bool is_right = read_numbers(text, words.costs, COSTS);
    for (UInt i = 0; i < COSTS; i++) is_right = is_right && words.costs[i] <= MOST_COST;
    if (!is_right) VG_(fmsg_bad_option)(word, "five numbers of cycles\n");
    return True;
}

static Bool take_codes(const HChar *word) {
    static all_codes own;
    const HChar *text;
    if (!VG_STR_CLO(word, "--codes", text)) return False;
    if (!read_codes(text, own)) VG_(fmsg_bad_option)(word, "KIND:SSUU+SSUU,..\n");
    words.codes = own;
    return True;
}

static Bool take_lines(const HChar *word) {
    Long number;
    if (VG_BOOL_CLO(word, "--tape", words.has_tape)) {
    } else if (VG_BOOL_CLO(word, "--each", words.is_each)) {
    } else if (VG_BINT_CLO(word, "--window", words.window, 1, MOST_WINDOW)) {
    } else if (VG_BINT_CLO(word, "--most-amount", number, 0, NO_LIMIT)) {
        words.most_amount = number ? (Int)number : NO_LIMIT;
    } else if (VG_INT_CLO(word, "--stream", number)) {
        words.stream = (Int)number;
    } else if (VG_STR_CLO(word, "--streams", words.streams)) {
    } else if (VG_INT_CLO(word, "--report", number)) {
        words.report = (Int)number;
    } else return False;
    return True;
}

static Bool take_begin(const HChar *word) {
    Long address;
    if (VG_BHEX_CLO(word, "--entry", address, 0, MOST_BITS)) {
        words.entry = (Addr)address;
    } else if (VG_BHEX_CLO(word, "--from", address, 0, MOST_BITS)) {
        words.from = (Addr)address;
    } else if (VG_BOOL_CLO(word, "--from-entry", words.from_entry)) {
    } else if (VG_BOOL_CLO(word, "--stopped", words.is_stopped)) {
    } else if (VG_BOOL_CLO(word, "--keep-random", words.keeps_random)) {
    } else if (VG_XACT_CLO(word, "--threads=any", words.threads, ANY_THREAD)) {
    } else if (VG_XACT_CLO(word, "--threads=first", words.threads, FIRST_THREAD)) {
    } else if (VG_XACT_CLO(word, "--threads=one", words.threads, ONE_THREAD)) {
    } else return False;
    return True;
}

/* Words of whole processes. */
static Bool take_totals(const HChar *word) {
    Long kinds;
    const HChar *name;
    if (VG_STR_CLO(word, "--process-totals", words.totals)) {
    } else if (VG_STR_CLO(word, "--function", name)) {
        functions_take(name);
    } else if (VG_BOOL_CLO(word, "--profile", words.has_profile)) {
    } else if (VG_STR_CLO(word, "--process", words.process)) {
    } else if (VG_BHEX_CLO(word, "--kinds", kinds, 0, MOST_BITS)) {
        words.kinds = (ULong)kinds;
        words.is_partial = True;
    } else return False;
    return True;
}

Bool words_take(const HChar *word) {
    Long bits;
    if (VG_BOOL_CLO(word, "--model", words.has_model)) return True;
    if (VG_BOOL_CLO(word, "--counts", words.has_counts)) return True;
    if (VG_BOOL_CLO(word, "--further", words.has_further)) return True;
    if (VG_BOOL_CLO(word, "--check-blocks", words.checks_blocks)) return True;
    if (VG_BOOL_CLO(word, "--totals", words.shows_totals)) return True;
    if (VG_BINT_CLO(word, "--predictor", bits, 0, MOST_PREDICTOR_BITS)) {
        words.predictor_bits = (Int)bits;
        return True;
    }
    if (VG_XACT_CLO(word, "--rep=turns", words.has_rep_lines, False)) return True;
    if (VG_XACT_CLO(word, "--rep=lines", words.has_rep_lines, True)) return True;
    if (VG_BOOL_CLO(word, "--library", words.counts_library)) return True;
    if (VG_BINT_CLO(word, "--mhz", words.mhz, 1, MOST_MHZ)) return True;
    return take_shape(word) || take_costs(word) || take_codes(word) || take_lines(word) ||
           take_begin(word) || take_totals(word);
}

/* A word of Valgrind's core: whether it reads which functions are inlined where. */
extern Bool VG_(clo_read_inline_info);

/* A kind that is counted by others has those too. */
void words_end(void) {
    static const UChar needs[][2] = {
        {KL_CYCLES, KL_STALLS}, {LOAD_HITS, KL_LOADS}, {LOAD_HITS, KL_L1D_LOAD_MISSES},
        {KL_TAKEN, LEFT_TAKEN}, {KL_TAKEN, STAYED_NOT_TAKEN}, {KL_TAKEN, STAYED_TAKEN},
        {KL_NOT_TAKEN, LEFT_NOT_TAKEN}, {KL_NOT_TAKEN, STAYED_TAKEN},
        {KL_NOT_TAKEN, STAYED_NOT_TAKEN},
    };
    words.kinds |= 1UL << KL_INSTRUCTIONS;
    VG_(clo_read_inline_info) = words.has_profile;
    for (UInt i = 0; i < sizeof needs / sizeof *needs; i++)
        if (counts_kind(needs[i][0])) words.kinds |= 1UL << needs[i][1];
}

void words_print(void) {
    VG_(printf)("    --model=yes|no           caches, translation buffers and a predictor [no]\n"
                "    --l1d=LINES,WAYS,BYTES   a part of that machine, or none; also --l1i, --l2, "
                "--l3, --dtlb, --itlb\n"
                "    --predictor=N            2^N counters of branches, 0 for none [14]\n"
                "    --costs=L2,L3,MEMORY,PAGE,BRANCH   cycles beside the one of each instruction "
                "[8,38,200,20,16]\n"
                "    --counts=yes|no          counts of all kinds, for requests [yes]\n"
                "    --further=yes|no         also what only other tools count, and accesses as "
                "they see them [no]\n"
                "    --check-blocks=yes|no    look whether each block is well formed [no]\n"
                "    --rep=turns|lines        what an instruction with rep accesses: something in "
                "each turn, or each line once [turns]\n"
                "    --totals=yes|no          print the counts of each thread when it ends [no]\n"
                "    --library=yes|no         count what the library does too, to measure it [no]\n"
                "    --tape=yes|no            gather lines of a stream [no]\n"
                "    --each=yes|no            a line for each occurrence [no]\n"
                "    --window=N               instructions among which lines are gathered [65536]\n"
                "    --most-amount=N          of a line, 0 for no limit [255]\n"
                "    --codes=KIND:SSUU+SSUU,..  of the lines: a select code and a umask for each "
                "[those of examples/recorded.unit]\n"
                "    --stream=DESCRIPTOR      where the lines of all threads go; without it "
                "requests fetch them\n"
                "    --streams=FILE           where those of each thread go, with its number for "
                "%%t\n"
                "    --report=DESCRIPTOR      where totals and what ended the run are told\n"
                "    --process-totals=FOLDER  where each process writes its counts when it ends\n"
                "    --process=NAME           the process in that folder [1]\n"
                "    --function=NAME          totals have calls of this one alone; may be "
                "repeated\n"
                "    --profile=yes|no         also what functions and lines did [no]\n"
                "    --kinds=0xMASK           the kinds that count, if no library asks [all]\n"
                "    --mhz=N                  the rate of the clock, for threads that sleep "
                "[1000]\n"
                "    --entry=0xADDRESS        the entry of the program's file: nothing before it "
                "is counted, nor changes the machine\n"
                "    --from=0xADDRESS         the same for a function of the program's file\n"
                "    --from-entry=yes|no      the same for the entry of each program [no]\n"
                "    --keep-random=yes|no     the program has the system's random bytes, which "
                "are other ones each time [no]\n"
                "    --stopped=yes|no         threads count only when a request starts them [no]\n"
                "    --threads=any|first|one  which threads count; with one a second thread ends "
                "the run [any]\n");
}

void words_print_kinds(void) {
    for (UInt kind = 0; kind < LINE_KINDS; kind++) {
        const kind_codes *codes = &recorded_codes[kind];
        VG_(printf)("    kind %u %s ", kind, kind_names[kind]);
        if (codes->count) VG_(printf)(CODE_FORMAT "\n", codes->of[0].select, codes->of[0].umask);
        else VG_(printf)("-\n");
    }
}
