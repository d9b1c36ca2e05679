/* PAPI's low-level calls over modelled counters, for C and C++.
 *
 * A handle stands for what one thread's calls go to. It is a struct of one pointer that the caller
 * keeps, begun as KISTALUB_SHUT; nothing but these functions reads or writes it. A handle is used
 * by one call at a time. Threads have a handle each, and share nothing: sets and codes of events
 * are the handle's.
 *
 * The functions answer PAPI's codes: 0, or a number below 0 (papi.h names them). A handle without a
 * library answers -16, PAPI_ENOINIT. Texts and arrays are a pointer and a length, and the pointer
 * is never null. Names and codes that are given back go into an array if it has room for all of
 * them; else nothing is written but how much room it takes, and the answer is -1, PAPI_EINVAL.
 * Values go into an array as far as there is room. These functions are proved up to here; this
 * header itself is not. */
#ifndef KISTALUB_H
#define KISTALUB_H

#include <stddef.h>
#include <stdint.h>

/* The version of these files. */
#define KISTALUB_VERSION "1.0.0"

#ifdef __cplusplus
extern "C" {
#endif

typedef struct { void *at; } kistalub;
#define KISTALUB_SHUT { NULL }

/* A threshold that was passed: the set, the place of the event in it from 0, and the address of the
 * occurrence. */
typedef struct { uint32_t set, index; uint64_t address; } kistalub_passing;

/* Opens the library of a thread over the text of a unit file, of a preset file (of length 0: no
 * presets) for a cpu, and of a stream. The texts are not needed afterwards. -1 if a file is faulty
 * or the cpu is not UTF-8, -2 if memory is refused: the handle is then as it was. A library that
 * was open in the handle is closed. */
int kistalub_open(kistalub *h, const unsigned char *unit, size_t unit_len,
                  const unsigned char *presets, size_t presets_len, const unsigned char *cpu,
                  size_t cpu_len, uint32_t thread, const unsigned char *stream, size_t stream_len);
void kistalub_close(kistalub *h);

int kistalub_register(kistalub *h);
int kistalub_unregister(kistalub *h);

int kistalub_create(kistalub *h, uint32_t *set);
int kistalub_destroy(kistalub *h, uint32_t set);
int kistalub_cleanup(kistalub *h, uint32_t set);
int kistalub_assign_component(kistalub *h, uint32_t set, uint32_t component);
int kistalub_set_domain(kistalub *h, uint32_t set, uint32_t bits);
int kistalub_set_multiplex(kistalub *h, uint32_t set, uint32_t slice);

/* Events by name: -1 if the name is not UTF-8. */
int kistalub_add_named(kistalub *h, uint32_t set, const unsigned char *name, size_t name_len);
int kistalub_remove_named(kistalub *h, uint32_t set, const unsigned char *name, size_t name_len);
int kistalub_overflow_named(kistalub *h, uint32_t set, const unsigned char *name, size_t name_len,
                            uint64_t threshold);

/* Events by code: that of a preset, or of a native event that was named before. A threshold of 0
 * clears it. */
int kistalub_add(kistalub *h, uint32_t set, uint32_t code);
int kistalub_remove(kistalub *h, uint32_t set, uint32_t code);
int kistalub_overflow(kistalub *h, uint32_t set, uint32_t code, uint64_t threshold);
int kistalub_name_to_code(kistalub *h, const unsigned char *name, size_t name_len, uint32_t *code);
int kistalub_code_to_name(kistalub *h, uint32_t code, unsigned char *name, size_t room,
                          uint64_t *length);
int kistalub_list_events(kistalub *h, uint32_t set, uint32_t *codes, size_t room, uint64_t *count);

/* A part of what is told of the event of a code, empty if the event has none: its name, its
 * description, and of an available preset or user event the derived type, the formula, and the name
 * of the native event in a place from 0. */
#define KISTALUB_NAME 0
#define KISTALUB_DESCRIPTION 1
#define KISTALUB_DERIVED_TYPE 2
#define KISTALUB_FORMULA 3
#define KISTALUB_NATIVE 4
int kistalub_info(kistalub *h, uint32_t code, uint32_t part, uint32_t place, unsigned char *text,
                  size_t room, uint64_t *length);

/* The presets and then the user events in order: the code in a row. -7 past the last. */
int kistalub_code_in_row(kistalub *h, uint32_t row, uint32_t *code);

/* A part of what the unit's file says of a component: its name, the name of its pmu, and the name
 * of the counter in a place from 0. -7 if there is no such component or counter. */
#define KISTALUB_COMPONENT_NAME 0
#define KISTALUB_COMPONENT_PMU 1
#define KISTALUB_COMPONENT_COUNTER 2
int kistalub_component(kistalub *h, uint32_t component, uint32_t part, uint32_t place,
                       unsigned char *text, size_t room, uint64_t *length);

/* A part of what the unit's file says of the native event in a row of a component, both from 0: its
 * name PMU::EVENT and its description, and of its umask in a place from 0 the name PMU::EVENT:UMASK
 * and the description. -7 if there is no such row or umask. */
#define KISTALUB_ROW_NAME 0
#define KISTALUB_ROW_DESCRIPTION 1
#define KISTALUB_ROW_MASK 2
#define KISTALUB_ROW_MASK_DESCRIPTION 3
int kistalub_native(kistalub *h, uint32_t component, uint32_t row, uint32_t part, uint32_t place,
                    unsigned char *text, size_t room, uint64_t *length);

/* The component of the event of a code, -7 if it is the code of no event that is available; and the
 * row of a native event in it. */
int kistalub_component_of(kistalub *h, uint32_t code, uint32_t *component);
int kistalub_row_of(kistalub *h, uint32_t code, uint32_t *row);

int kistalub_start(kistalub *h, uint32_t set);
int kistalub_stop(kistalub *h, uint32_t set, int64_t *values, size_t room, uint32_t *count);
int kistalub_read(kistalub *h, uint32_t set, int64_t *values, size_t room, uint32_t *count);
/* The model's accumulating call: the sums are kept in the set. PAPI_accum of papi.h adds to the
 * caller's array. */
int kistalub_accum(kistalub *h, uint32_t set, int64_t *values, size_t room, uint32_t *count);
int kistalub_reset(kistalub *h, uint32_t set);
int kistalub_state(kistalub *h, uint32_t set, uint32_t *bits);

/* How many counters and how many native events a component has, -17 if there is no such
 * component. */
int kistalub_counters(kistalub *h, uint32_t component);
int kistalub_natives(kistalub *h, uint32_t component);

/* What ended a stream: the line, from 1, and the number of the cause; both 0 if nothing did. A read
 * that failed has no line. */
typedef struct { uint64_t line; uint32_t cause; } kistalub_fault;

/* The words of a cause, as papi_run says them; none if no cause has the number. */
int kistalub_cause(uint32_t cause, unsigned char *words, size_t room, uint64_t *length);

/* The first faulty row of a unit file or of a preset file for a cpu, from 1, and the words of its
 * cause; row 0 and no words if none is faulty. */
int kistalub_unit_fault(const unsigned char *unit, size_t unit_len, uint64_t *row,
                        unsigned char *words, size_t room, uint64_t *length);
int kistalub_presets_fault(const unsigned char *presets, size_t presets_len,
                           const unsigned char *cpu, size_t cpu_len, uint64_t *row,
                           unsigned char *words, size_t room, uint64_t *length);

/* Consumes up to n occurrences of the stream, and says how many. Each threshold that is passed is
 * written into the array, in order. At one occurrence at most 32 are passed: if fewer have room it
 * stops before the next occurrence with -20, PAPI_EBUF, and a further call goes on, so that none is
 * lost. With n = 1 an array of 32 is always enough. -3 once if the stream is faulty: `fault` then
 * says where and why, and after that the stream has ended. -2 if memory is refused, and nothing
 * happened then: an array of at most 32 takes none. */
int kistalub_run(kistalub *h, uint32_t n, uint32_t *consumed, kistalub_passing *passings,
                 size_t room, uint64_t *told, kistalub_fault *fault);

/* Occurrences of a native event: its component, select code and umask as a line of a stream has
 * them, whether they are in kernel mode, the program counter, and how many there are. */
typedef struct {
    uint64_t address;
    uint32_t amount;
    uint8_t component, select, umask, kernel;
} kistalub_occurrences;

/* These happen now, one after another, in a library whose stream has ended or is empty, and each
 * `amount` says then how many of them are left. They count as the lines of a stream would, of 255
 * each and a last one of the rest (docs/FORMATS.md, "Occurrences as numbers"). Each threshold that
 * is passed is written into the array, in order: what comes after the first of them that passes
 * some waits for a further call. If fewer than 32 have room, or 32 places were written, it stops
 * before the next line with -20, PAPI_EBUF, and a further call goes on with what is left. -1 if the
 * stream has not ended, and nothing happens then, or if the thread has had as many lines as a
 * thread may. It takes no memory. */
int kistalub_happen(kistalub *h, kistalub_occurrences *what, size_t whats,
                    kistalub_passing *passings, size_t room, uint64_t *told);

/* What follows is C over the functions above (the sources in c/), and is not proved. */

/* What PAPI_library_init takes, in place of the environment: the paths of a unit file, of a preset
 * file or NULL, the cpu or NULL, and of the streams, where %t stands for the number of the thread
 * from 0. Without it they come from KISTALUB_UNIT, KISTALUB_PRESETS, KISTALUB_CPU and
 * KISTALUB_STREAM. Before PAPI_library_init, else PAPI_EINVAL. PAPI_ESYS if a file is faulty or
 * can't be read, and a line on standard error says why. A stream that is named with %t and that
 * there is not is empty. */
int kistalub_init(const char *unit, const char *presets, const char *cpu, const char *stream);

/* The calling thread is the one of this number, and has its stream. Each thread calls it before any
 * other call, if it is to be certain which thread has which stream; else a thread has the next
 * number at its first call. The thread of PAPI_library_init is number 0. PAPI_EINVAL if the thread
 * has another number already, or if another thread that lives has this one. */
int kistalub_thread(uint32_t number);

/* The calling thread goes on: up to n occurrences happen, `went` says how many, and the handlers of
 * PAPI_overflow are called at each occurrence that passes a threshold, before the next one. Each
 * PAPI_read, PAPI_accum and PAPI_stop first goes on by KISTALUB_STEP of the environment, 0 if there
 * is none. PAPI_ESYS if the stream is faulty: a line on standard error then says where and why, and
 * the stream has ended. In a handler time stands: PAPI_EISRUN. */
int kistalub_go(uint32_t n, uint32_t *went);

#ifdef __cplusplus
}
#endif
#endif
