/* The routines of Fortran, PAPIF_accum(3) and so on, in the four spellings that compilers make of a
 * name. Each hands its arguments on to the function of papi.h. The lengths of texts come after the
 * arguments; a text of Fortran has no end, and blanks fill it up. */
#include "posix.h"
#include "events.h"
#include "papi.h"

#include <string.h>

#define ROUTINE(name, capitals, arguments) \
    void name arguments; \
    void name##_ arguments __attribute__((alias(#name))); \
    void name##__ arguments __attribute__((alias(#name))); \
    void capitals arguments __attribute__((alias(#name))); \
    void name arguments

/* A text of Fortran with an end, without the blanks after it. One that has no room is cut. */
static const char *from_fortran(const char *from, int length, char *to, size_t room) {
    size_t n = length < 0 ? 0 : (size_t)length;
    while (n > 0 && from[n - 1] == ' ') n--;
    if (n >= room) n = room - 1;
    memcpy(to, from, n);
    to[n] = 0;
    return to;
}

static void to_fortran(const char *from, char *to, int length) {
    size_t room = length < 0 ? 0 : (size_t)length, n = strlen(from);
    if (n > room) n = room;
    memcpy(to, from, n);
    memset(to + n, ' ', room - n);
}

/* The text `from` of `length` with an end, in `text`. */
#define TEXT(from, length) \
    char room_[NAME_ROOM]; \
    const char *text = from_fortran(from, length, room_, sizeof room_)

#pragma GCC visibility push(default)

/* The library. */
ROUTINE(papif_library_init, PAPIF_LIBRARY_INIT, (int *check)) {
    *check = PAPI_library_init(*check);
}
ROUTINE(papif_is_initialized, PAPIF_IS_INITIALIZED, (int *level)) {
    *level = PAPI_is_initialized();
}
ROUTINE(papif_shutdown, PAPIF_SHUTDOWN, (void)) { PAPI_shutdown(); }
ROUTINE(papif_set_debug, PAPIF_SET_DEBUG, (const int *level, int *check)) {
    *check = PAPI_set_debug(*level);
}
ROUTINE(papif_perror, PAPIF_PERROR, (const char *message, int length)) {
    TEXT(message, length);
    PAPI_perror(text);
}

/* Event sets and their events. */
ROUTINE(papif_create_eventset, PAPIF_CREATE_EVENTSET, (int *set, int *check)) {
    *check = PAPI_create_eventset(set);
}
ROUTINE(papif_destroy_eventset, PAPIF_DESTROY_EVENTSET, (int *set, int *check)) {
    *check = PAPI_destroy_eventset(set);
}
ROUTINE(papif_cleanup_eventset, PAPIF_CLEANUP_EVENTSET, (const int *set, int *check)) {
    *check = PAPI_cleanup_eventset(*set);
}
ROUTINE(papif_assign_eventset_component, PAPIF_ASSIGN_EVENTSET_COMPONENT,
        (const int *set, const int *component, int *check)) {
    *check = PAPI_assign_eventset_component(*set, *component);
}
ROUTINE(papif_add_event, PAPIF_ADD_EVENT, (const int *set, const int *event, int *check)) {
    *check = PAPI_add_event(*set, *event);
}
ROUTINE(papif_add_events, PAPIF_ADD_EVENTS,
        (const int *set, int *events, const int *number, int *check)) {
    *check = PAPI_add_events(*set, events, *number);
}
ROUTINE(papif_add_named_event, PAPIF_ADD_NAMED_EVENT,
        (const int *set, const char *name, int *check, int length)) {
    TEXT(name, length);
    *check = PAPI_add_named_event(*set, text);
}
ROUTINE(papif_remove_event, PAPIF_REMOVE_EVENT, (const int *set, const int *event, int *check)) {
    *check = PAPI_remove_event(*set, *event);
}
ROUTINE(papif_remove_events, PAPIF_REMOVE_EVENTS,
        (const int *set, int *events, const int *number, int *check)) {
    *check = PAPI_remove_events(*set, events, *number);
}
ROUTINE(papif_remove_named_event, PAPIF_REMOVE_NAMED_EVENT,
        (const int *set, const char *name, int *check, int length)) {
    TEXT(name, length);
    *check = PAPI_remove_named_event(*set, text);
}
ROUTINE(papif_list_events, PAPIF_LIST_EVENTS,
        (const int *set, int *events, int *number, int *check)) {
    *check = PAPI_list_events(*set, events, number);
}
ROUTINE(papif_num_events, PAPIF_NUM_EVENTS, (const int *set, int *count)) {
    *count = PAPI_num_events(*set);
}
ROUTINE(papif_state, PAPIF_STATE, (const int *set, int *status, int *check)) {
    *check = PAPI_state(*set, status);
}

/* Counting. */
ROUTINE(papif_start, PAPIF_START, (const int *set, int *check)) { *check = PAPI_start(*set); }
ROUTINE(papif_stop, PAPIF_STOP, (const int *set, long long *values, int *check)) {
    *check = PAPI_stop(*set, values);
}
ROUTINE(papif_read, PAPIF_READ, (const int *set, long long *values, int *check)) {
    *check = PAPI_read(*set, values);
}
ROUTINE(papif_read_ts, PAPIF_READ_TS,
        (const int *set, long long *values, long long *cycles, int *check)) {
    *check = PAPI_read_ts(*set, values, cycles);
}
ROUTINE(papif_accum, PAPIF_ACCUM, (const int *set, long long *values, int *check)) {
    *check = PAPI_accum(*set, values);
}
ROUTINE(papif_reset, PAPIF_RESET, (const int *set, int *check)) { *check = PAPI_reset(*set); }
ROUTINE(papif_write, PAPIF_WRITE, (const int *set, long long *values, int *check)) {
    *check = PAPI_write(*set, values);
}

/* Options, domains, granularities and multiplexing. The mode is PAPI_DEFDOM or PAPI_DOMAIN,
 * PAPI_DEFGRN or PAPI_GRANUL. */
ROUTINE(papif_multiplex_init, PAPIF_MULTIPLEX_INIT, (int *check)) {
    *check = PAPI_multiplex_init();
}
ROUTINE(papif_get_multiplex, PAPIF_GET_MULTIPLEX, (const int *set, int *check)) {
    *check = PAPI_get_multiplex(*set);
}
ROUTINE(papif_set_multiplex, PAPIF_SET_MULTIPLEX, (const int *set, int *check)) {
    *check = PAPI_set_multiplex(*set);
}
ROUTINE(papif_set_domain, PAPIF_SET_DOMAIN, (const int *domain, int *check)) {
    *check = PAPI_set_domain(*domain);
}
ROUTINE(papif_set_cmp_domain, PAPIF_SET_CMP_DOMAIN,
        (const int *domain, const int *component, int *check)) {
    *check = PAPI_set_cmp_domain(*domain, *component);
}
ROUTINE(papif_set_event_domain, PAPIF_SET_EVENT_DOMAIN,
        (const int *set, const int *domain, int *check)) {
    PAPI_option_t option = { .domain = { 0, *set, *domain } };
    *check = PAPI_set_opt(PAPI_DOMAIN, &option);
}
ROUTINE(papif_get_domain, PAPIF_GET_DOMAIN,
        (const int *set, int *domain, const int *mode, int *check)) {
    PAPI_option_t option = { .domain = { 0, *set, 0 } };
    int answer =
        *mode == PAPI_DEFDOM || *mode == PAPI_DOMAIN ? PAPI_get_opt(*mode, &option) : PAPI_EINVAL;
    *check = answer < 0 ? answer : PAPI_OK;
    if (answer >= 0) *domain = *mode == PAPI_DEFDOM ? answer : option.domain.domain;
}
ROUTINE(papif_set_granularity, PAPIF_SET_GRANULARITY, (const int *granularity, int *check)) {
    *check = PAPI_set_granularity(*granularity);
}
ROUTINE(papif_set_cmp_granularity, PAPIF_SET_CMP_GRANULARITY,
        (const int *granularity, const int *component, int *check)) {
    *check = PAPI_set_cmp_granularity(*granularity, *component);
}
ROUTINE(papif_get_granularity, PAPIF_GET_GRANULARITY,
        (const int *set, int *granularity, const int *mode, int *check)) {
    PAPI_option_t option = { .granularity = { 0, *set, 0 } };
    int answer =
        *mode == PAPI_DEFGRN || *mode == PAPI_GRANUL ? PAPI_get_opt(*mode, &option) : PAPI_EINVAL;
    *check = answer < 0 ? answer : PAPI_OK;
    if (answer >= 0) *granularity = *mode == PAPI_DEFGRN ? answer : option.granularity.granularity;
}
ROUTINE(papif_set_inherit, PAPIF_SET_INHERIT, (const int *inherit, int *check)) {
    PAPI_option_t option = { .inherit = { PAPI_NULL, *inherit } };
    *check = PAPI_set_opt(PAPI_INHERIT, &option);
}
ROUTINE(papif_get_clockrate, PAPIF_GET_CLOCKRATE, (int *mhz)) {
    *mhz = PAPI_get_opt(PAPI_CLOCKRATE, NULL);
}
ROUTINE(papif_get_preload, PAPIF_GET_PRELOAD, (char *variable, int *check, int length)) {
    PAPI_option_t option;
    *check = PAPI_get_opt(PAPI_PRELOAD, &option);
    if (*check == PAPI_OK) to_fortran(option.preload.lib_preload_env, variable, length);
}

/* Events. */
ROUTINE(papif_event_name_to_code, PAPIF_EVENT_NAME_TO_CODE,
        (const char *name, int *event, int *check, int length)) {
    TEXT(name, length);
    *check = PAPI_event_name_to_code(text, event);
}
ROUTINE(papif_event_code_to_name, PAPIF_EVENT_CODE_TO_NAME,
        (const int *event, char *name, int *check, int length)) {
    char text[PAPI_MAX_STR_LEN] = "";
    *check = PAPI_event_code_to_name(*event, text);
    to_fortran(*check == PAPI_OK ? text : "", name, length);
}
ROUTINE(papif_query_event, PAPIF_QUERY_EVENT, (const int *event, int *check)) {
    *check = PAPI_query_event(*event);
}
ROUTINE(papif_query_named_event, PAPIF_QUERY_NAMED_EVENT,
        (const char *name, int *check, int length)) {
    TEXT(name, length);
    *check = PAPI_query_named_event(text);
}
ROUTINE(papif_get_event_info, PAPIF_GET_EVENT_INFO,
        (const int *event, char *symbol, char *long_text, char *short_text, int *count, char *note,
         const int *flags, int *check, int symbol_length, int long_length, int short_length,
         int note_length)) {
    struct { PAPI_event_info_t info; int later; } told;
    (void)flags;
    *check = PAPI_get_event_info(*event, &told.info);
    if (*check != PAPI_OK) return;
    to_fortran(told.info.symbol, symbol, symbol_length);
    to_fortran(told.info.long_descr, long_text, long_length);
    to_fortran(told.info.short_descr, short_text, short_length);
    to_fortran(told.info.note, note, note_length);
    *count = (int)told.info.count;
}
ROUTINE(papif_enum_event, PAPIF_ENUM_EVENT, (int *event, const int *modifier, int *check)) {
    *check = PAPI_enum_event(event, *modifier);
}

/* Counters, the machine and the process. */
ROUTINE(papif_num_hwctrs, PAPIF_num_hwctrs, (int *number)) { *number = PAPI_num_hwctrs(); }
ROUTINE(papif_num_cmp_hwctrs, PAPIF_num_cmp_hwctrs, (const int *component, int *number)) {
    *number = PAPI_num_cmp_hwctrs(*component);
}
ROUTINE(papif_get_hardware_info, PAPIF_GET_HARDWARE_INFO,
        (int *cpus, int *nodes, int *all_cpus, int *vendor, char *vendor_text, int *model,
         char *model_text, float *revision, float *mhz, int vendor_length, int model_length)) {
    const PAPI_hw_info_t *info = PAPI_get_hardware_info();
    *cpus = info ? info->ncpu : 0;
    *nodes = info ? info->nnodes : 0;
    *all_cpus = info ? info->totalcpus : 0;
    *vendor = info ? info->vendor : 0;
    *model = info ? info->model : 0;
    *revision = info ? info->revision : 0;
    *mhz = info ? (float)info->cpu_max_mhz : 0;
    to_fortran(info ? info->vendor_string : "", vendor_text, vendor_length);
    to_fortran(info ? info->model_string : "", model_text, model_length);
}
ROUTINE(papif_get_exe_info, PAPIF_GET_EXE_INFO,
        (char *path, char *name, long long *text_start, long long *text_end, long long *data_start,
         long long *data_end, long long *bss_start, long long *bss_end, int *check, int path_length,
         int name_length)) {
    const PAPI_exe_info_t *info = PAPI_get_executable_info();
    *check = info ? PAPI_OK : PAPI_EINVAL;
    if (!info) return;
    const PAPI_address_map_t *map = &info->address_info;
    to_fortran(info->fullname, path, path_length);
    to_fortran(map->name, name, name_length);
    *text_start = (long long)(intptr_t)map->text_start;
    *text_end = (long long)(intptr_t)map->text_end;
    *data_start = (long long)(intptr_t)map->data_start;
    *data_end = (long long)(intptr_t)map->data_end;
    *bss_start = (long long)(intptr_t)map->bss_start;
    *bss_end = (long long)(intptr_t)map->bss_end;
}
/* The places PAPIF_DMEM_VMPEAK to PAPIF_DMEM_PTE are the members of PAPI_dmem_info_t in their
 * order. */
ROUTINE(papif_get_dmem_info, PAPIF_GET_DMEM_INFO, (long long *places, int *check)) {
    PAPI_dmem_info_t info;
    *check = PAPI_get_dmem_info(&info);
    if (*check == PAPI_OK) memcpy(places, &info, PAPIF_DMEM_MAXVAL * sizeof *places);
}

/* Devices. Fortran has the one that was enumerated last in this thread; its number is always 0. */
static _Thread_local void *device;

ROUTINE(papif_enum_dev_type, PAPIF_ENUM_DEV_TYPE, (const int *modifier, int *number, int *check)) {
    *check = PAPI_enum_dev_type(*modifier, &device);
    *number = 0;
}
ROUTINE(papif_get_dev_type_attr, PAPIF_GET_DEV_TYPE_ATTR,
        (int *number, const int *attribute, int *value, char *text, int *check, int length)) {
    int is_text = *attribute == PAPI_DEV_TYPE_ATTR__CHAR_NAME ||
                  *attribute == PAPI_DEV_TYPE_ATTR__CHAR_STATUS;
    const char *said = NULL;
    *number = 0;
    *check = device ? PAPI_get_dev_type_attr(device, (PAPI_dev_type_attr_e)*attribute,
                                             is_text ? (void *)&said : value)
                    : PAPI_EINVAL;
    if (*check == PAPI_OK && said) to_fortran(said, text, length);
}
ROUTINE(papif_get_dev_attr, PAPIF_GET_DEV_ATTR,
        (int *number, const int *id, const int *attribute, int *value, char *text, int *check,
         int length)) {
    int is_text = *attribute == PAPI_DEV_ATTR__CPU_CHAR_NAME ||
                  *attribute == PAPI_DEV_ATTR__CUDA_CHAR_DEVICE_NAME ||
                  *attribute == PAPI_DEV_ATTR__ROCM_CHAR_DEVICE_NAME;
    const char *said = NULL;
    /* An attribute may be as wide; of it Fortran's integer has the first bytes. */
    unsigned long wide = 0;
    *number = 0;
    *check = device ? PAPI_get_dev_attr(device, *id, (PAPI_dev_attr_e)*attribute,
                                        is_text ? (void *)&said : &wide)
                    : PAPI_EINVAL;
    if (*check != PAPI_OK) return;
    if (said) to_fortran(said, text, length);
    else memcpy(value, &wide, sizeof *value);
}

/* Time. */
ROUTINE(papif_get_real_cyc, PAPIF_GET_REAL_CYC, (long long *cycles)) {
    *cycles = PAPI_get_real_cyc();
}
ROUTINE(papif_get_real_usec, PAPIF_GET_REAL_USEC, (long long *time)) {
    *time = PAPI_get_real_usec();
}
ROUTINE(papif_get_real_nsec, PAPIF_GET_REAL_NSEC, (long long *time)) {
    *time = PAPI_get_real_nsec();
}
ROUTINE(papif_get_virt_cyc, PAPIF_GET_VIRT_CYC, (long long *cycles)) {
    *cycles = PAPI_get_virt_cyc();
}
ROUTINE(papif_get_virt_usec, PAPIF_GET_VIRT_USEC, (long long *time)) {
    *time = PAPI_get_virt_usec();
}

/* Threads and locks. An id has 8 bytes, where PAPI's has them. */
ROUTINE(papif_thread_init, PAPIF_THREAD_INIT, (unsigned long (*id_fn)(void), int *check)) {
    *check = PAPI_thread_init(id_fn);
}
ROUTINE(papif_thread_id, PAPIF_THREAD_ID, (unsigned long *id)) { *id = PAPI_thread_id(); }
ROUTINE(papif_register_thread, PAPIF_REGISTER_THREAD, (int *check)) {
    *check = PAPI_register_thread();
}
ROUTINE(papif_unregister_thread, PAPIF_UNREGISTER_THREAD, (int *check)) {
    *check = PAPI_unregister_thread();
}
ROUTINE(papif_unregster_thread, PAPIF_UNREGSTER_THREAD, (int *check)) {
    *check = PAPI_unregister_thread();
}
ROUTINE(papif_lock, PAPIF_LOCK, (const int *lock, int *check)) { *check = PAPI_lock(*lock); }
ROUTINE(papif_unlock, PAPIF_unlock, (const int *lock, int *check)) { *check = PAPI_unlock(*lock); }

/* Rates. The event's code is taken as Fortran passes it, by its place. */
ROUTINE(papif_ipc, PAPIF_IPC,
        (float *real, float *process, long long *instructions, float *ipc, int *check)) {
    *check = PAPI_ipc(real, process, instructions, ipc);
}
ROUTINE(papif_epc, PAPIF_EPC,
        (const int *event, float *real, float *process, long long *reference, long long *core,
         long long *count, float *epc, int *check)) {
    *check = PAPI_epc(*event, real, process, reference, core, count, epc);
}
ROUTINE(papif_flips_rate, PAPIF_FLIPS_RATE,
        (const int *event, float *real, float *process, long long *count, float *mflips,
         int *check)) {
    *check = PAPI_flips_rate(*event, real, process, count, mflips);
}
ROUTINE(papif_flops_rate, PAPIF_FLOPS_RATE,
        (const int *event, float *real, float *process, long long *count, float *mflops,
         int *check)) {
    *check = PAPI_flops_rate(*event, real, process, count, mflops);
}
ROUTINE(papif_rate_stop, PAPIF_RATE_STOP, (int *check)) { *check = PAPI_rate_stop(); }

/* The high level. */
ROUTINE(papif_hl_region_begin, PAPIF_HL_REGION_BEGIN,
        (const char *region, int *check, int length)) {
    TEXT(region, length);
    *check = PAPI_hl_region_begin(text);
}
ROUTINE(papif_hl_read, PAPIF_HL_READ, (const char *region, int *check, int length)) {
    TEXT(region, length);
    *check = PAPI_hl_read(text);
}
ROUTINE(papif_hl_region_end, PAPIF_HL_REGION_END, (const char *region, int *check, int length)) {
    TEXT(region, length);
    *check = PAPI_hl_region_end(text);
}
ROUTINE(papif_hl_stop, PAPIF_HL_STOP, (int *check)) { *check = PAPI_hl_stop(); }

#pragma GCC visibility pop
