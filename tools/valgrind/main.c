/* A tool of Valgrind that counts what each thread of a program does while it runs: instructions,
 * accesses, branches, floating-point operations, and the misses of a modelled machine. It writes
 * them as a stream, or answers the library inside the program (protocol.h). */
#include "pub_tool_basics.h"
#include "pub_tool_libcbase.h"
#include "pub_tool_libcprint.h"
#include "pub_tool_libcproc.h"
#include "pub_tool_machine.h"
#include "pub_tool_options.h"
#include "pub_tool_tooliface.h"

#include "code.h"
#include "core.h"
#include "events.h"
#include "output.h"
#include "requests.h"
#include "slots.h"
#include "totals.h"
#include "turns.h"
#include "words.h"

/* A word of Valgrind's core. */
extern Bool VG_(clo_show_below_main);

static void begin(void) {
    words_end();
    outputs_begin();
    slots_begin();
    cores_begin();
    totals_begin();
    events_begin();
}

static void begin_words(void) {
    VG_(details_name)("kistalub");
    VG_(details_version)(NULL);
    VG_(details_description)("counts of a program while it runs");
    VG_(details_copyright_author)
    ("Copyright (c) the Kistalub authors; as linked with Valgrind under the GNU GPL.");
    VG_(details_bug_reports_to)("the Kistalub authors");
    VG_(details_avg_translation_sizeB)(700);
    VG_(basic_tool_funcs)(begin, instrument, events_end);
    VG_(needs_command_line_options)(words_take, words_print, words_print_kinds);
    VG_(needs_client_requests)(answer_request);
    VG_(needs_superblock_discards)(forget_block);
    VG_(needs_syscall_wrapper)(system_call_begins, system_call_ended);
    VG_(track_pre_thread_ll_create)(thread_begins);
    VG_(track_pre_thread_ll_exit)(thread_ends);
    VG_(track_start_client_code)(program_goes_on);
    VG_(track_stop_client_code)(turns_code_stops);
    VG_(track_pre_deliver_signal)(signal_comes);
    VG_(clo_show_below_main) = True; /* the names of functions are their own */
    /* else a block may be run before it is known to be reached */
    VG_(clo_vex_control).guest_chase = False;
    /* else an instruction may stand twice in a block */
    VG_(clo_vex_control).iropt_unroll_thresh = 0;
}

VG_DETERMINE_INTERFACE_VERSION(begin_words)
