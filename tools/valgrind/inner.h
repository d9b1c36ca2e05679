/* What Valgrind's core does not show its tools, and the names by which the linker hands its calls
 * to us (build). */
#ifndef INNER_H
#define INNER_H
#include "pub_tool_basics.h"
#include "pub_tool_threadstate.h"
#include "pub_tool_vki.h"

struct sched_lock;
struct sched_lock_ops {
    const HChar *(*name)(void);
    struct sched_lock *(*make)(void);
    void (*drop)(struct sched_lock *lock);
    int (*owner)(struct sched_lock *lock);
    void (*take)(struct sched_lock *lock);
    void (*leave)(struct sched_lock *lock);
};
/* In the place of the core's own, which is then not linked. */
extern const struct sched_lock_ops vgModuleLocal_linux_ticket_lock_ops;

extern SysRes VG_(do_syscall)(UWord number, UWord a, UWord b, UWord c, UWord d, UWord e, UWord f,
                              UWord g, UWord h);
extern Bool VG_(is_exiting)(ThreadId tid);
extern void VG_(poll_signals)(ThreadId tid);
extern void VG_(set_IP)(ThreadId tid, Addr to);

void __wrap_vgPlain_acquire_BigLock(ThreadId tid, const HChar *who);
void __real_vgPlain_acquire_BigLock(ThreadId tid, const HChar *who);
void __wrap_vgPlain_release_BigLock(ThreadId tid, Int status, const HChar *who);
void __real_vgPlain_release_BigLock(ThreadId tid, Int status, const HChar *who);
/* A thread runs until its block counter is below 0, or something else stops it: words[0] says what.
 */
void __wrap_vgPlain_disp_run_translations(HWord *words, volatile void *state, Addr code);
void __real_vgPlain_disp_run_translations(HWord *words, volatile void *state, Addr code);
/* A call of the system that may wait: the answer goes into the state's RAX. */
UWord __wrap_vgModuleLocal_do_syscall_for_client_WRK(Word number, void *state,
                                                     const vki_sigset_t *blocked,
                                                     const vki_sigset_t *restored, Word size);
UWord __real_vgModuleLocal_do_syscall_for_client_WRK(Word number, void *state,
                                                     const vki_sigset_t *blocked,
                                                     const vki_sigset_t *restored, Word size);

#endif
