/* PAPI 7.0's interface over the modelled counters of kistalub.h, for C and C++.
 *
 * A program written for PAPI includes this file in place of PAPI's, and links libkistalub.a or the
 * shared library. What is counted are occurrences of a recorded stream: kistalub_init or the
 * environment name it, and time goes on by kistalub_go or KISTALUB_STEP (kistalub.h).
 *
 * Names, types and numbers are PAPI's, so a program that was built with PAPI's header runs over the
 * shared library. docs/C_PROGRAMS.md says of each function what it does here and what differs. This
 * file and the sources of c/ are not proved. */
#ifndef _PAPI
#define _PAPI

#include <limits.h>
#include <signal.h>
#include <sys/types.h>

#ifdef __GNUC__
#pragma GCC visibility push(default)
#endif

#include "kistalub.h"

#ifdef __cplusplus
extern "C" {
#endif

#include "papiStdEventDefs.h"
#include "papi_constants.h"
#include "papi_types.h"
#include "papi_devices.h"

#define PAPI_VERSION_NUMBER(maj, min, rev, inc) \
    (((maj) << 24) | ((min) << 16) | ((rev) << 8) | (inc))
#define PAPI_VERSION_MAJOR(x) (((x) >> 24) & 0xff)
#define PAPI_VERSION_MINOR(x) (((x) >> 16) & 0xff)
#define PAPI_VERSION_REVISION(x) (((x) >> 8) & 0xff)
#define PAPI_VERSION_INCREMENT(x) ((x) & 0xff)
#define PAPI_VERSION PAPI_VERSION_NUMBER(7, 0, 0, 0)
/* What PAPI_library_init is given. */
#define PAPI_VER_CURRENT (PAPI_VERSION & 0xffff0000)

/* What a code stands for. */
#define IS_NATIVE(EventCode) (((EventCode) & PAPI_NATIVE_MASK) && !((EventCode) & PAPI_PRESET_MASK))
#define IS_PRESET(EventCode) (((EventCode) & PAPI_PRESET_MASK) && !((EventCode) & PAPI_NATIVE_MASK))
#define IS_USER_DEFINED(EventCode) \
    (((EventCode) & PAPI_PRESET_MASK) && ((EventCode) & PAPI_NATIVE_MASK))

/* Each function has a line of what it does, the errors that are its own, and its page of PAPI's
 * manual. Besides these a function that needs the library answers PAPI_ENOINIT without one, one
 * that needs memory PAPI_ENOMEM, one with a set PAPI_ENOEVST if there is none of the number, and
 * one that opens the calling thread's stream PAPI_ESYS if it can't be read. docs/C_PROGRAMS.md says
 * what differs from PAPI. */

/* The library. */

/* Begins the library, and answers the version: each whose major number is 7. PAPI_EINVAL; PAPI_ESYS
 * if a file or a variable is faulty. PAPI_library_init(3) */
int PAPI_library_init(int version);
/* Whether a library is begun, and whether with support of threads: bits. No errors.
 * PAPI_is_initialized(3) */
int PAPI_is_initialized(void);
/* Ends the library, with all sets of all threads. No errors. PAPI_shutdown(3) */
void PAPI_shutdown(void);
/* The text of a code, or NULL. PAPI_strerror(3) */
char *PAPI_strerror(int code);
/* Writes a text and that of the thread's last error to standard error. PAPI_perror(3) */
void PAPI_perror(const char *msg);
/* How much is said of errors. PAPI_EINVAL. PAPI_set_debug(3) */
int PAPI_set_debug(int level);

/* Event sets and their events. */

/* Makes a set, which is PAPI_NULL before. PAPI_EINVAL, PAPI_ECOUNT. PAPI_create_eventset(3) */
int PAPI_create_eventset(int *EventSet);
/* Takes an empty set away, and makes it PAPI_NULL. PAPI_EINVAL, PAPI_EISRUN.
 * PAPI_destroy_eventset(3) */
int PAPI_destroy_eventset(int *EventSet);
/* Takes all events out of a set. PAPI_EISRUN. PAPI_cleanup_eventset(3) */
int PAPI_cleanup_eventset(int EventSet);
/* Binds a set to a component. PAPI_ENOCMP, PAPI_EINVAL. PAPI_assign_eventset_component(3) */
int PAPI_assign_eventset_component(int EventSet, int cidx);
/* The component of a set. PAPI_ENOCMP. PAPI_get_eventset_component(3) */
int PAPI_get_eventset_component(int EventSet);
/* Adds an event by its code. PAPI_ENOEVNT, PAPI_EISRUN, PAPI_EINVAL, PAPI_ECNFLCT, PAPI_ECOUNT.
 * PAPI_add_event(3) */
int PAPI_add_event(int EventSet, int Event);
/* Adds an event by its name. The same, and PAPI_EATTR. PAPI_add_named_event(3) */
int PAPI_add_named_event(int EventSet, const char *EventName);
/* Adds events. The same; a number above 0 is that of the events that were added before one was
 * refused. PAPI_add_events(3) */
int PAPI_add_events(int EventSet, int *Events, int number);
/* Takes an event out by its code. PAPI_EISRUN, PAPI_EINVAL. PAPI_remove_event(3) */
int PAPI_remove_event(int EventSet, int EventCode);
/* Takes an event out by its name. PAPI_EISRUN, PAPI_EINVAL. PAPI_remove_named_event(3) */
int PAPI_remove_named_event(int EventSet, const char *EventName);
/* Takes events out. The same; a number above 0 is that of the events that were taken out before one
 * was refused. PAPI_remove_events(3) */
int PAPI_remove_events(int EventSet, int *Events, int number);
/* The codes of a set's events as far as there is room, or with a number of 0 how many there are.
 * PAPI_EINVAL. PAPI_list_events(3) */
int PAPI_list_events(int EventSet, int *Events, int *number);
/* How many events a set has. PAPI_num_events(3) */
int PAPI_num_events(int EventSet);
/* The state of a set: bits. PAPI_EINVAL. PAPI_state(3) */
int PAPI_state(int EventSet, int *status);

/* Counting. Those that read let a step of time happen first: PAPI_ESYS if it meets a faulty line of
 * the stream. */

/* Sets the counts to zero, and starts them. PAPI_EISRUN, PAPI_EINVAL. PAPI_start(3) */
int PAPI_start(int EventSet);
/* Stops counting, and gives the counts if the values are not NULL. PAPI_ENOTRUN. PAPI_stop(3) */
int PAPI_stop(int EventSet, long long *values);
/* The counts. PAPI_EINVAL. PAPI_read(3) */
int PAPI_read(int EventSet, long long *values);
/* The counts, and the thread's real time in cycles. PAPI_EINVAL. PAPI_read_ts(3) */
int PAPI_read_ts(int EventSet, long long *values, long long *cyc);
/* Adds the counts to the caller's values, and sets them to zero. PAPI_EINVAL. PAPI_accum(3) */
int PAPI_accum(int EventSet, long long *values);
/* Sets the counts to zero. PAPI_reset(3) */
int PAPI_reset(int EventSet);
/* PAPI_ENOSUPP: a model's counters are not written. PAPI_write(3) */
int PAPI_write(int EventSet, long long *values);
/* PAPI_ENOSUPP: another task's counters are not seen. PAPI_attach(3) */
int PAPI_attach(int EventSet, unsigned long tid);
/* PAPI_ENOSUPP. PAPI_detach(3) */
int PAPI_detach(int EventSet);

/* Options, domains, granularities and multiplexing. */

/* What an option is. PAPI_EINVAL, PAPI_ENOSUPP, PAPI_ENOCMP, PAPI_ECMP. PAPI_get_opt(3) */
int PAPI_get_opt(int option, PAPI_option_t *ptr);
/* Sets an option. The same, PAPI_EISRUN, PAPI_EINVAL_DOM. PAPI_set_opt(3) */
int PAPI_set_opt(int option, PAPI_option_t *ptr);
/* What an option of a component is. PAPI_ECMP, PAPI_EINVAL. PAPI_get_cmp_opt(3) */
int PAPI_get_cmp_opt(int option, PAPI_option_t *ptr, int cidx);
/* The domain of the sets that are made from now on. PAPI_EINVAL, PAPI_ENOSUPP.
 * PAPI_set_domain(3) */
int PAPI_set_domain(int domain);
/* The same of the sets that are bound to a component. The same, PAPI_ENOCMP.
 * PAPI_set_cmp_domain(3) */
int PAPI_set_cmp_domain(int domain, int cidx);
/* Takes PAPI_GRN_THR. PAPI_EINVAL. PAPI_set_granularity(3) */
int PAPI_set_granularity(int granularity);
/* Takes PAPI_GRN_THR for a component. PAPI_EINVAL, PAPI_ENOCMP. PAPI_set_cmp_granularity(3) */
int PAPI_set_cmp_granularity(int granularity, int cidx);
/* Sets can be multiplexed. PAPI_multiplex_init(3) */
int PAPI_multiplex_init(void);
/* Multiplexes a set by the usual slice. PAPI_EISRUN, PAPI_EINVAL. PAPI_set_multiplex(3) */
int PAPI_set_multiplex(int EventSet);
/* Whether a set is multiplexed; 0 if there is none. PAPI_get_multiplex(3) */
int PAPI_get_multiplex(int EventSet);

/* Handlers and profiles. */

/* Calls a handler each time an event has counted as much as a threshold, or with a threshold of 0
 * no longer. PAPI_EISRUN, PAPI_ENOEVNT, PAPI_EINVAL. PAPI_overflow(3) */
int PAPI_overflow(int EventSet, int EventCode, int threshold, int flags,
                  PAPI_overflow_handler_t handler);
/* The places of the events whose bits a handler was given. PAPI_EINVAL.
 * PAPI_get_overflow_event_index(3) */
int PAPI_get_overflow_event_index(int EventSet, long long overflow_vector, int *array, int *number);
/* Counts addresses in buckets at each threshold that an event passes. PAPI_EISRUN, PAPI_ENOEVNT,
 * PAPI_EINVAL. PAPI_profil(3) */
int PAPI_profil(void *buf, unsigned bufsiz, vptr_t offset, unsigned scale, int EventSet,
                int EventCode, int threshold, int flags);
/* The same for several regions of addresses. The same. PAPI_sprofil(3) */
int PAPI_sprofil(PAPI_sprofil_t *prof, int profcnt, int EventSet, int EventCode, int threshold,
                 int flags);

/* Events by name and code. */

/* The code of a name. PAPI_EINVAL, PAPI_ENOEVNT, PAPI_EATTR. PAPI_event_name_to_code(3) */
int PAPI_event_name_to_code(const char *in, int *out);
/* The name of a code, in PAPI_MAX_STR_LEN places. PAPI_EINVAL, PAPI_ENOEVNT, PAPI_EBUF.
 * PAPI_event_code_to_name(3) */
int PAPI_event_code_to_name(int EventCode, char *out);
/* Whether an event can be counted. PAPI_ENOEVNT, PAPI_ENOTPRESET. PAPI_query_event(3) */
int PAPI_query_event(int EventCode);
/* The same by its name. PAPI_EINVAL, PAPI_ENOEVNT, PAPI_EATTR. PAPI_query_named_event(3) */
int PAPI_query_named_event(const char *EventName);
/* What there is to tell of an event. PAPI_EINVAL, PAPI_ENOEVNT. PAPI_get_event_info(3) */
int PAPI_get_event_info(int EventCode, PAPI_event_info_t *info);
/* The event after a code, as the modifier says, or with PAPI_ENUM_FIRST the first one. PAPI_EINVAL,
 * and PAPI_ENOEVNT after the last. PAPI_enum_event(3) */
int PAPI_enum_event(int *EventCode, int modifier);
/* The same in a component. The same, PAPI_ENOCMP. PAPI_enum_cmp_event(3) */
int PAPI_enum_cmp_event(int *EventCode, int modifier, int cidx);

/* Components. */

/* How many components the unit has. PAPI_num_components(3) */
int PAPI_num_components(void);
/* What there is to tell of a component, or NULL. PAPI_get_component_info(3) */
const PAPI_component_info_t *PAPI_get_component_info(int cidx);
/* The component of a name. PAPI_EINVAL, PAPI_ENOCMP. PAPI_get_component_index(3) */
int PAPI_get_component_index(const char *name);
/* The component of an event. PAPI_ENOEVNT. PAPI_get_event_component(3) */
int PAPI_get_event_component(int EventCode);
/* Disables a component before the library begins. PAPI_ENOINIT if it is begun, PAPI_ENOCMP.
 * PAPI_disable_component(3) */
int PAPI_disable_component(int cidx);
/* The same by its name. PAPI_disable_component_by_name(3) */
int PAPI_disable_component_by_name(const char *name);
/* How many counters a component has. PAPI_ENOCMP. PAPI_num_cmp_hwctrs(3) */
int PAPI_num_cmp_hwctrs(int cidx);
/* How many counters the first component has. PAPI_num_hwctrs(3) */
int PAPI_num_hwctrs(void);
#define PAPI_COMPONENT_INDEX(a) PAPI_get_event_component(a)
#define PAPI_descr_error(a) PAPI_strerror(a)

/* The modelled processor, and the process as the system knows it. */

/* The processor and its caches, or NULL. PAPI_get_hardware_info(3) */
const PAPI_hw_info_t *PAPI_get_hardware_info(void);
/* Where the program lies in memory, or NULL. PAPI_get_executable_info(3) */
const PAPI_exe_info_t *PAPI_get_executable_info(void);
/* Where its shared libraries lie, or NULL. PAPI_get_shared_lib_info(3) */
const PAPI_shlib_info_t *PAPI_get_shared_lib_info(void);
/* How much memory the process has. PAPI_EINVAL, PAPI_ESYS. PAPI_get_dmem_info(3) */
int PAPI_get_dmem_info(PAPI_dmem_info_t *dest);
/* The next type of devices: the processor is the only one. PAPI_EINVAL after it.
 * PAPI_enum_dev_type(3) */
int PAPI_enum_dev_type(int enum_modifier, void **handle);
/* What there is to tell of a type. PAPI_EINVAL, PAPI_ENOSUPP. PAPI_get_dev_type_attr(3) */
int PAPI_get_dev_type_attr(void *handle, PAPI_dev_type_attr_e attr, void *value);
/* What there is to tell of a device. PAPI_EINVAL, PAPI_ENOSUPP. PAPI_get_dev_attr(3) */
int PAPI_get_dev_attr(void *handle, int id, PAPI_dev_attr_e attr, void *value);

/* Time: the model's or the machine's, as KISTALUB_CLOCK says. No errors. */

/* PAPI_get_real_cyc(3) */
long long PAPI_get_real_cyc(void);
/* PAPI_get_real_nsec(3) */
long long PAPI_get_real_nsec(void);
/* PAPI_get_real_usec(3) */
long long PAPI_get_real_usec(void);
/* PAPI_get_virt_cyc(3) */
long long PAPI_get_virt_cyc(void);
/* PAPI_get_virt_nsec(3) */
long long PAPI_get_virt_nsec(void);
/* PAPI_get_virt_usec(3) */
long long PAPI_get_virt_usec(void);

/* Threads, what they keep for the program, and its locks. */

/* Takes a function that gives a thread's id. PAPI_EINVAL if there are threads already.
 * PAPI_thread_init(3) */
int PAPI_thread_init(unsigned long (*id_fn)(void));
/* The id of the calling thread, or PAPI_EMISC. PAPI_thread_id(3) */
unsigned long PAPI_thread_id(void);
/* Lists the calling thread. PAPI_register_thread(3) */
int PAPI_register_thread(void);
/* Takes it off the list, up to its next call. PAPI_EMISC, PAPI_EISRUN. PAPI_unregister_thread(3) */
int PAPI_unregister_thread(void);
/* The ids of the threads, as far as there is room, and how many. PAPI_EINVAL.
 * PAPI_list_threads(3) */
int PAPI_list_threads(unsigned long *tids, int *number);
/* What a thread has kept, or with PAPI_TLS_ALL_THREADS all have. PAPI_EINVAL.
 * PAPI_get_thr_specific(3) */
int PAPI_get_thr_specific(int tag, void **ptr);
/* Keeps a pointer for the calling thread. PAPI_EINVAL. PAPI_set_thr_specific(3) */
int PAPI_set_thr_specific(int tag, void *ptr);
/* Takes one of the program's two locks. PAPI_EINVAL. PAPI_lock(3) */
int PAPI_lock(int lock);
/* Gives it back. PAPI_EINVAL. PAPI_unlock(3) */
int PAPI_unlock(int lock);

/* Rates: the first call starts, each later one says what was since. PAPI_EINVAL, PAPI_ENOEVNT. */

/* Floating-point instructions in a second. PAPI_flips_rate(3) */
int PAPI_flips_rate(int event, float *rtime, float *ptime, long long *flpins, float *mflips);
/* Floating-point operations in a second. PAPI_flops_rate(3) */
int PAPI_flops_rate(int event, float *rtime, float *ptime, long long *flpops, float *mflops);
/* Instructions a cycle. PAPI_ipc(3) */
int PAPI_ipc(float *rtime, float *ptime, long long *ins, float *ipc);
/* Occurrences of an event a cycle. PAPI_epc(3) */
int PAPI_epc(int event, float *rtime, float *ptime, long long *ref, long long *core, long long *evt,
             float *epc);
/* Ends the calling thread's rate. PAPI_ENOEVNT if there is none. PAPI_rate_stop(3) */
int PAPI_rate_stop(void);

/* The high level: the events of PAPI_EVENTS counted in regions. After an error nothing more is
 * counted: PAPI_EMISC. */

/* Begins a region. PAPI_EINVAL, PAPI_ENOMEM. PAPI_hl_region_begin(3) */
int PAPI_hl_region_begin(const char *region);
/* Notes the counts since the innermost region began. PAPI_EINVAL. PAPI_hl_read(3) */
int PAPI_hl_read(const char *region);
/* Ends the innermost region. PAPI_EINVAL. PAPI_hl_region_end(3) */
int PAPI_hl_region_end(const char *region);
/* Stops the counters of the calling thread's regions. PAPI_ENOEVNT. PAPI_hl_stop(3) */
int PAPI_hl_stop(void);

#ifdef __cplusplus
}
#endif

#ifdef __GNUC__
#pragma GCC visibility pop
#endif
#endif
