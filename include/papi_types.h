/* What PAPI's calls fill and take. papi.h includes this file. Members that the model has nothing to
 * say of are 0 or empty. */
#ifndef KISTALUB_PAPI_TYPES_H
#define KISTALUB_PAPI_TYPES_H

#include "papi_constants.h"

#define long_long long long
#define u_long_long unsigned long long

typedef void *vptr_t;
typedef unsigned long PAPI_thread_id_t;

/* Called at an occurrence at which thresholds were passed: bit N of the vector stands for the event
 * in place N. The address is the occurrence's, and there is no context. */
typedef void (*PAPI_overflow_handler_t)(int EventSet, void *address, long long overflow_vector,
                                        void *context);

/* Called with the code of a refusal (PAPI_DEBUG). */
typedef int (*PAPI_debug_handler_t)(int code);

/* Pointers of all threads, for PAPI_get_thr_specific with PAPI_TLS_ALL_THREADS: in num the room and
 * then how many there are. */
typedef struct _papi_all_thr_spec {
    int num;
    PAPI_thread_id_t *id;
    void **data;
} PAPI_all_thr_spec_t;

/* A piece of the program for PAPI_sprofil: its buckets, their size in bytes, where it begins, and
 * 65536 for a bucket each 2 bytes. */
typedef struct _papi_sprofil {
    void *pr_base;
    unsigned pr_size;
    vptr_t pr_off;
    unsigned pr_scale;
} PAPI_sprofil_t;

/* A part of the program or of a library in memory. */
typedef struct _papi_address_map {
    char name[PAPI_HUGE_STR_LEN];
    vptr_t text_start, text_end;
    vptr_t data_start, data_end;
    vptr_t bss_start, bss_end;
} PAPI_address_map_t;

typedef struct _papi_program_info {
    char fullname[PAPI_HUGE_STR_LEN];
    PAPI_address_map_t address_info;
} PAPI_exe_info_t;

typedef struct _papi_shared_lib_info {
    PAPI_address_map_t *map;
    int count;
} PAPI_shlib_info_t;

/* The memory of the process in KiB, pagesize in bytes. */
typedef struct _dmem_t {
    long long peak, size, resident, high_water_mark;
    long long shared, text, library, heap, locked, stack;
    long long pagesize, pte;
} PAPI_dmem_info_t;

/* A component of the unit file. */
typedef struct _papi_component_option {
    char name[PAPI_MAX_STR_LEN];
    char short_name[PAPI_MIN_STR_LEN];
    char description[PAPI_MAX_STR_LEN];
    char version[PAPI_MIN_STR_LEN];
    char support_version[PAPI_MIN_STR_LEN];
    char kernel_version[PAPI_MIN_STR_LEN];
    char disabled_reason[PAPI_HUGE_STR_LEN];
    int disabled;
    int initialized;
    int CmpIdx;
    int num_cntrs, num_mpx_cntrs;
    int num_preset_events, num_native_events;
    int default_domain, available_domains;
    int default_granularity, available_granularities;
    int hardware_intr_sig;
    int component_type;
    char *pmu_names[PAPI_PMU_MAX];
    int reserved[8];
    unsigned int hardware_intr : 1;
    unsigned int precise_intr : 1;
    unsigned int posix1b_timers : 1;
    unsigned int kernel_profile : 1;
    unsigned int kernel_multiplex : 1;
    unsigned int fast_counter_read : 1;
    unsigned int fast_real_timer : 1;
    unsigned int fast_virtual_timer : 1;
    unsigned int attach : 1;
    unsigned int attach_must_ptrace : 1;
    unsigned int cntr_umasks : 1;
    unsigned int cpu : 1;
    unsigned int inherit : 1;
    unsigned int reserved_bits : 19;
} PAPI_component_info_t;

/* Caches: sizes in bytes. */
typedef struct _papi_mh_tlb_info {
    int type, num_entries, page_size, associativity;
} PAPI_mh_tlb_info_t;

typedef struct _papi_mh_cache_info {
    int type, size, line_size, num_lines, associativity;
} PAPI_mh_cache_info_t;

typedef struct _papi_mh_level_info {
    PAPI_mh_tlb_info_t tlb[PAPI_MH_MAX_LEVELS];
    PAPI_mh_cache_info_t cache[PAPI_MH_MAX_LEVELS];
} PAPI_mh_level_t;

typedef struct _papi_mh_info {
    int levels;
    PAPI_mh_level_t level[PAPI_MAX_MEM_HIERARCHY_LEVELS];
} PAPI_mh_info_t;

/* The modelled processor. */
typedef struct _papi_hw_info {
    int ncpu, threads, cores, sockets, nnodes, totalcpus;
    int vendor;
    char vendor_string[PAPI_MAX_STR_LEN];
    int model;
    char model_string[PAPI_MAX_STR_LEN];
    float revision;
    int cpuid_family, cpuid_model, cpuid_stepping;
    int cpu_max_mhz, cpu_min_mhz;
    PAPI_mh_info_t mem_hierarchy;
    int virtualized;
    char virtual_vendor_string[PAPI_MAX_STR_LEN];
    char virtual_vendor_version[PAPI_MAX_STR_LEN];
    float mhz;
    int clock_mhz;
    int reserved[8];
} PAPI_hw_info_t;

/* An event: of a preset or user event that is available `derived` is its derived type, `postfix`
 * its formula, and `code` and `name` have its `count` native events. */
typedef struct event_info {
    unsigned int event_code;
    char symbol[PAPI_HUGE_STR_LEN];
    char short_descr[PAPI_MIN_STR_LEN];
    char long_descr[PAPI_HUGE_STR_LEN];
    int component_index;
    char units[PAPI_MIN_STR_LEN];
    int location, data_type, value_type, timescope, update_type, update_freq;
    unsigned int count;
    unsigned int event_type;
    char derived[PAPI_MIN_STR_LEN];
    char postfix[PAPI_2MAX_STR_LEN];
    unsigned int code[PAPI_MAX_INFO_TERMS];
    char name[PAPI_MAX_INFO_TERMS][PAPI_2MAX_STR_LEN];
    char note[PAPI_HUGE_STR_LEN];
} PAPI_event_info_t;

/* What an option of PAPI_get_opt and PAPI_set_opt has. def_cidx is a component, eventset a set. */
typedef struct _papi_itimer_option {
    int itimer_num, itimer_sig, ns, flags;
} PAPI_itimer_option_t;

typedef struct _papi_inherit_option {
    int eventset, inherit;
} PAPI_inherit_option_t;

typedef struct _papi_domain_option {
    int def_cidx, eventset, domain;
} PAPI_domain_option_t;

typedef struct _papi_granularity_option {
    int def_cidx, eventset, granularity;
} PAPI_granularity_option_t;

typedef struct _papi_preload_option {
    char lib_preload_env[PAPI_MAX_STR_LEN];
    char lib_preload_sep;
    char lib_dir_env[PAPI_MAX_STR_LEN];
    char lib_dir_sep;
} PAPI_preload_info_t;

typedef struct _papi_mpx_info {
    int timer_sig, timer_num, timer_us;
} PAPI_mpx_info_t;

typedef struct _papi_debug_option {
    int level;
    PAPI_debug_handler_t handler;
} PAPI_debug_option_t;

typedef struct _papi_attach_option {
    int eventset;
    unsigned long tid;
} PAPI_attach_option_t;

typedef struct _papi_cpu_option {
    int eventset;
    unsigned int cpu_num;
} PAPI_cpu_option_t;

/* ns is the length of a slice in ticks of the stream. */
typedef struct _papi_multiplex_option {
    int eventset, ns, flags;
} PAPI_multiplex_option_t;

typedef struct _papi_addr_range_option {
    int eventset;
    vptr_t start, end;
    int start_off, end_off;
} PAPI_addr_range_option_t;

typedef char *PAPI_user_defined_events_file_t;

typedef union {
    PAPI_preload_info_t preload;
    PAPI_debug_option_t debug;
    PAPI_inherit_option_t inherit;
    PAPI_granularity_option_t granularity, defgranularity;
    PAPI_domain_option_t domain, defdomain;
    PAPI_attach_option_t attach;
    PAPI_cpu_option_t cpu;
    PAPI_multiplex_option_t multiplex;
    PAPI_itimer_option_t itimer;
    PAPI_hw_info_t *hw_info;
    PAPI_shlib_info_t *shlib_info;
    PAPI_exe_info_t *exe_info;
    PAPI_component_info_t *cmp_info;
    PAPI_addr_range_option_t addr;
    PAPI_user_defined_events_file_t events_file;
} PAPI_option_t;

#endif
