#include "calls.h"

#include "pub_tool_aspacemgr.h"
#include "pub_tool_guest.h"
#include "pub_tool_libcassert.h"
#include "pub_tool_libcbase.h"
#include "pub_tool_libcprint.h"
#include "pub_tool_libcproc.h"
#include "pub_tool_machine.h"
#include "pub_tool_mallocfree.h"
#include "pub_tool_vki.h"
#include "pub_tool_vkiscnums.h"

#include "clocks.h"
#include "futexes.h"
#include "inner.h"
#include "turns.h"

#define SYSTEM_CALL 2UL            /* bytes of the instruction */
#define CLEARS_NUMBER 0x00200000UL /* CLONE_CHILD_CLEARTID */
#define IS_THREAD 0x00010000UL     /* CLONE_THREAD */
#define NO_WAIT 1UL                /* WNOHANG */
#define SIGNALS 64
enum { CAN_READ = 1, CAN_WRITE = 4 }; /* POLLIN and POLLOUT */

typedef struct {
    Addr number_at;
    Int interrupted_by;
    VexGuestAMD64State *state;
} of_thread;

static of_thread *threads;  /* by thread */
static Addr number_of_next; /* of the thread that is being made */
static ULong restarting;    /* signals whose handler lets a call go on */

static of_thread *of(ThreadId tid) {
    if (!threads) threads = VG_(calloc)("calls", VG_N_THREADS, sizeof *threads);
    return &threads[tid];
}

/* -- which calls wait -- */

/* poll of one descriptor, without a wait: whether a read or a write goes on at once. */
static Bool is_ready(UWord descriptor, Short events) {
    struct vki_pollfd one = {(Int)descriptor, events, 0};
    SysRes result = VG_(do_syscall)(__NR_poll, (UWord)&one, 1, 0, 0, 0, 0, 0, 0);
    return !sr_isError(result) && sr_Res(result) != 0;
}

static Bool never_waits(UWord descriptor) {
    SysRes flags = VG_(do_syscall)(__NR_fcntl, descriptor, VKI_F_GETFL, 0, 0, 0, 0, 0, 0);
    return sr_isError(flags) || sr_Res(flags) & VKI_O_NONBLOCK;
}

/* Calls that the system answers at once, for all that the program can tell. */
static const UShort quick[] = {__NR_open,
                               __NR_openat,
                               __NR_creat,
                               __NR_close,
                               __NR_stat,
                               __NR_lstat,
                               __NR_fstat,
                               __NR_newfstatat,
                               __NR_statx,
                               __NR_fsync,
                               __NR_fdatasync,
                               __NR_lseek,
                               __NR_getdents,
                               __NR_getdents64,
                               __NR_unlink,
                               __NR_unlinkat,
                               __NR_rename,
                               __NR_renameat,
                               __NR_renameat2,
                               __NR_mkdir,
                               __NR_mkdirat,
                               __NR_rmdir,
                               __NR_link,
                               __NR_linkat,
                               __NR_symlink,
                               __NR_symlinkat,
                               __NR_readlink,
                               __NR_readlinkat,
                               __NR_ftruncate,
                               __NR_truncate,
                               __NR_fallocate,
                               __NR_access,
                               __NR_faccessat,
                               __NR_chmod,
                               __NR_fchmod,
                               __NR_fchmodat,
                               __NR_chdir,
                               __NR_utimensat,
                               __NR_statfs,
                               __NR_fstatfs,
                               __NR_getrandom,
                               __NR_kill,
                               __NR_tkill,
                               __NR_tgkill,
                               __NR_rt_sigqueueinfo,
                               __NR_rt_tgsigqueueinfo,
                               __NR_pipe,
                               __NR_pipe2,
                               __NR_socket,
                               __NR_socketpair,
                               __NR_bind,
                               __NR_listen,
                               __NR_shutdown,
                               __NR_eventfd2,
                               __NR_epoll_ctl,
                               __NR_memfd_create,
                               __NR_madvise,
                               __NR_msync,
                               __NR_mlock,
                               __NR_dup,
                               __NR_dup2,
                               __NR_dup3,
                               __NR_umask,
                               __NR_sysinfo,
                               __NR_getsockname,
                               __NR_getsockopt,
                               __NR_setsockopt,
                               __NR_membarrier,
                               __NR_prctl};

static Bool is_listed(UInt number) {
    for (UInt i = 0; i < sizeof quick / sizeof *quick; i++)
        if (quick[i] == number) return True;
    return False;
}

static Bool is_quick(UInt number, const UWord *a) {
    switch (number) {
    case __NR_read:
    case __NR_readv:
    case __NR_pread64:
    case __NR_preadv:
    case __NR_recvfrom:
    case __NR_recvmsg:
    case __NR_accept:
    case __NR_accept4: return is_ready(a[0], CAN_READ) || never_waits(a[0]);
    case __NR_write:
    case __NR_writev:
    case __NR_pwrite64:
    case __NR_pwritev:
    case __NR_sendto:
    case __NR_sendmsg: return is_ready(a[0], CAN_WRITE) || never_waits(a[0]);
    case __NR_wait4: return (a[2] & NO_WAIT) != 0;
    case __NR_waitid: return (a[3] & NO_WAIT) != 0;
    case __NR_fcntl: return a[1] != VKI_F_SETLKW;
    default: return is_listed(number);
    }
}

/* -- the call -- */

static void interrupted(ThreadId me, Long answer, const vki_sigset_t *blocked) {
    of(me)->interrupted_by = answer == -VKI_EINTR ? pending_signal(blocked) : 0;
}

/* Whether the call was answered here. If not the system answers it, in the thread's turn or while
 * others have theirs. */
static Bool answers(ThreadId me, UInt number, VexGuestAMD64State *state,
                    const vki_sigset_t *blocked) {
    const UWord arguments[] = {state->guest_RDI, state->guest_RSI, state->guest_RDX,
                               state->guest_R10, state->guest_R8,  state->guest_R9};
    ULong nanoseconds;
    Long answer = 0;
    of(me)->state = state;
    if (number == __NR_futex && futex_call(me, state, blocked, &answer)) {
        interrupted(me, answer, blocked);
    } else if (number == __NR_sched_yield) {
        turns_gives_way();
    } else {
        if (clocks_only_waits(me, number, arguments, &nanoseconds))
            turns_leaves_for(nanoseconds / BLOCK_NANOSECONDS);
        else if (!is_quick(number, arguments)) turns_leaves(number);
        return False;
    }
    state->guest_RAX = (ULong)answer;
    return True;
}

UWord __wrap_vgModuleLocal_do_syscall_for_client_WRK(Word number, void *state,
                                                     const vki_sigset_t *blocked,
                                                     const vki_sigset_t *restored, Word size) {
    if (turns_are_shared() && answers(turns_owner(), (UInt)number, state, blocked)) return 0;
    return __real_vgModuleLocal_do_syscall_for_client_WRK(number, state, blocked, restored, size);
}

/* -- signals -- */

/* A wait ended because of a signal. With a handler that says so the call is made again behind it.
 */
static void takes_signal(ThreadId tid, of_thread *t) {
    UInt signal = (UInt)t->interrupted_by - 1;
    t->interrupted_by = 0;
    if (restarting >> signal & 1) {
        VG_(set_IP)(tid, VG_(get_IP)(tid) - SYSTEM_CALL);
        t->state->guest_RAX = __NR_futex;
    }
    VG_(poll_signals)(tid);
}

static void sees_handler(const UWord *arguments) {
    const struct vki_sigaction_base *to = (const struct vki_sigaction_base *)arguments[1];
    UWord signal = arguments[0] - 1;
    if (!to || signal >= SIGNALS ||
        !VG_(am_is_valid_for_client)((Addr)to, sizeof *to, VKI_PROT_READ))
        return;
    restarting &= ~(1UL << signal);
    if (to->sa_flags & VKI_SA_RESTART || (UWord)to->ksa_handler <= 1) restarting |= 1UL << signal;
}

static Bool sends_signal(UInt number) {
    return number == __NR_kill || number == __NR_tkill || number == __NR_tgkill ||
           number == __NR_rt_sigqueueinfo || number == __NR_rt_tgsigqueueinfo;
}

/* -- threads -- */

void calls_thread_begins(ThreadId tid) {
    *of(tid) = (of_thread){.number_at = number_of_next};
    number_of_next = 0;
}

/* What the system does when a thread has gone is done in its turn: its number is set to 0, and one
 * that waits for this goes on. */
void calls_thread_ends(ThreadId tid) {
    Addr at = of(tid)->number_at;
    of(tid)->number_at = 0;
    if (!at || tid != turns_owner() ||
        !VG_(am_is_valid_for_client)(at, sizeof(Int), VKI_PROT_WRITE))
        return;
    VG_(do_syscall)(__NR_set_tid_address, 0, 0, 0, 0, 0, 0, 0, 0);
    *(volatile Int *)at = 0;
    futex_wake(at, 1, ~0U);
}

void calls_begins(ThreadId tid, UInt number, const UWord *a) {
    (void)tid;
    if (number == __NR_clone && a[0] & IS_THREAD && turns_are_all()) {
        VG_(printf)
        ("papi: the program has %u threads at one time, and can't have more here\n",
         VG_N_THREADS - 1);
        VG_(exit)(1);
    }
    if (sends_signal(number)) turns_sends_signal();
    number_of_next = number == __NR_clone && a[0] & CLEARS_NUMBER && a[0] & IS_THREAD ? a[3] : 0;
}

void calls_ended(ThreadId tid, UInt number, const UWord *a, SysRes result) {
    of_thread *t = of(tid);
    if (t->interrupted_by) takes_signal(tid, t);
    if (sends_signal(number)) turns_look_for_signals();
    if (sr_isError(result)) return;
    if (number == __NR_rt_sigaction) sees_handler(a);
    if (number == __NR_set_tid_address) t->number_at = a[0];
    if (number == __NR_clone && sr_Res(result)) turns_stays();
}

void calls_of_child(ThreadId tid) {
    of(tid)->number_at = 0;
    futexes_of_child();
}
