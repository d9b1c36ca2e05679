/* All functions of papi.h, and those of kistalub.h that begin as they do, with what each does.
 * DOES_COUNT: it counts, tells the time, or waits: a handler of a signal may call it, or it makes
 * such calls itself, and signals come meanwhile.
 * DOES_CHANGE: it changes what these look at, and signals wait. MAY_START: it may start or stop a
 * set. */
#ifndef KL_FUNCTIONS_H
#define KL_FUNCTIONS_H

#define KL_DOES_COUNT 0
#define KL_DOES_CHANGE 1
#define KL_MAY_START 2

#define KL_FUNCTIONS(ONE) \
    ONE(kistalub_go, KL_DOES_COUNT) \
    ONE(kistalub_init, KL_DOES_COUNT) \
    ONE(kistalub_thread, KL_DOES_CHANGE) \
    ONE(PAPI_accum, KL_DOES_COUNT) \
    ONE(PAPI_add_event, KL_DOES_CHANGE) \
    ONE(PAPI_add_events, KL_DOES_CHANGE) \
    ONE(PAPI_add_named_event, KL_DOES_CHANGE) \
    ONE(PAPI_assign_eventset_component, KL_DOES_CHANGE) \
    ONE(PAPI_attach, KL_DOES_CHANGE) \
    ONE(PAPI_cleanup_eventset, KL_DOES_CHANGE) \
    ONE(PAPI_create_eventset, KL_DOES_CHANGE) \
    ONE(PAPI_destroy_eventset, KL_DOES_CHANGE) \
    ONE(PAPI_detach, KL_DOES_CHANGE) \
    ONE(PAPI_disable_component, KL_DOES_CHANGE) \
    ONE(PAPI_disable_component_by_name, KL_DOES_CHANGE) \
    ONE(PAPI_enum_cmp_event, KL_DOES_CHANGE) \
    ONE(PAPI_enum_dev_type, KL_DOES_CHANGE) \
    ONE(PAPI_enum_event, KL_DOES_CHANGE) \
    ONE(PAPI_epc, KL_MAY_START) \
    ONE(PAPI_event_code_to_name, KL_DOES_CHANGE) \
    ONE(PAPI_event_name_to_code, KL_DOES_CHANGE) \
    ONE(PAPI_flips_rate, KL_MAY_START) \
    ONE(PAPI_flops_rate, KL_MAY_START) \
    ONE(PAPI_get_cmp_opt, KL_DOES_CHANGE) \
    ONE(PAPI_get_component_index, KL_DOES_CHANGE) \
    ONE(PAPI_get_component_info, KL_DOES_CHANGE) \
    ONE(PAPI_get_dev_attr, KL_DOES_CHANGE) \
    ONE(PAPI_get_dev_type_attr, KL_DOES_CHANGE) \
    ONE(PAPI_get_dmem_info, KL_DOES_CHANGE) \
    ONE(PAPI_get_event_component, KL_DOES_CHANGE) \
    ONE(PAPI_get_event_info, KL_DOES_CHANGE) \
    ONE(PAPI_get_eventset_component, KL_DOES_CHANGE) \
    ONE(PAPI_get_executable_info, KL_DOES_CHANGE) \
    ONE(PAPI_get_hardware_info, KL_DOES_CHANGE) \
    ONE(PAPI_get_multiplex, KL_DOES_CHANGE) \
    ONE(PAPI_get_opt, KL_DOES_CHANGE) \
    ONE(PAPI_get_overflow_event_index, KL_DOES_CHANGE) \
    ONE(PAPI_get_real_cyc, KL_DOES_COUNT) \
    ONE(PAPI_get_real_nsec, KL_DOES_COUNT) \
    ONE(PAPI_get_real_usec, KL_DOES_COUNT) \
    ONE(PAPI_get_shared_lib_info, KL_DOES_CHANGE) \
    ONE(PAPI_get_thr_specific, KL_DOES_CHANGE) \
    ONE(PAPI_get_virt_cyc, KL_DOES_COUNT) \
    ONE(PAPI_get_virt_nsec, KL_DOES_COUNT) \
    ONE(PAPI_get_virt_usec, KL_DOES_COUNT) \
    ONE(PAPI_hl_read, KL_MAY_START) \
    ONE(PAPI_hl_region_begin, KL_MAY_START) \
    ONE(PAPI_hl_region_end, KL_MAY_START) \
    ONE(PAPI_hl_stop, KL_MAY_START) \
    ONE(PAPI_ipc, KL_MAY_START) \
    ONE(PAPI_is_initialized, KL_DOES_CHANGE) \
    ONE(PAPI_library_init, KL_MAY_START) \
    ONE(PAPI_list_events, KL_DOES_CHANGE) \
    ONE(PAPI_list_threads, KL_DOES_CHANGE) \
    ONE(PAPI_lock, KL_DOES_COUNT) \
    ONE(PAPI_multiplex_init, KL_DOES_CHANGE) \
    ONE(PAPI_num_cmp_hwctrs, KL_DOES_CHANGE) \
    ONE(PAPI_num_components, KL_DOES_CHANGE) \
    ONE(PAPI_num_events, KL_DOES_CHANGE) \
    ONE(PAPI_num_hwctrs, KL_DOES_CHANGE) \
    ONE(PAPI_overflow, KL_DOES_CHANGE) \
    ONE(PAPI_perror, KL_DOES_CHANGE) \
    ONE(PAPI_profil, KL_DOES_CHANGE) \
    ONE(PAPI_query_event, KL_DOES_CHANGE) \
    ONE(PAPI_query_named_event, KL_DOES_CHANGE) \
    ONE(PAPI_rate_stop, KL_MAY_START) \
    ONE(PAPI_read, KL_DOES_COUNT) \
    ONE(PAPI_read_ts, KL_DOES_COUNT) \
    ONE(PAPI_register_thread, KL_DOES_CHANGE) \
    ONE(PAPI_remove_event, KL_DOES_CHANGE) \
    ONE(PAPI_remove_events, KL_DOES_CHANGE) \
    ONE(PAPI_remove_named_event, KL_DOES_CHANGE) \
    ONE(PAPI_reset, KL_DOES_COUNT) \
    ONE(PAPI_set_cmp_domain, KL_DOES_CHANGE) \
    ONE(PAPI_set_cmp_granularity, KL_DOES_CHANGE) \
    ONE(PAPI_set_debug, KL_DOES_CHANGE) \
    ONE(PAPI_set_domain, KL_DOES_CHANGE) \
    ONE(PAPI_set_granularity, KL_DOES_CHANGE) \
    ONE(PAPI_set_multiplex, KL_DOES_CHANGE) \
    ONE(PAPI_set_opt, KL_DOES_CHANGE) \
    ONE(PAPI_set_thr_specific, KL_DOES_CHANGE) \
    ONE(PAPI_shutdown, KL_DOES_CHANGE | KL_MAY_START) \
    ONE(PAPI_sprofil, KL_DOES_CHANGE) \
    ONE(PAPI_start, KL_MAY_START) \
    ONE(PAPI_state, KL_DOES_CHANGE) \
    ONE(PAPI_stop, KL_MAY_START) \
    ONE(PAPI_strerror, KL_DOES_CHANGE) \
    ONE(PAPI_thread_id, KL_DOES_CHANGE) \
    ONE(PAPI_thread_init, KL_DOES_CHANGE) \
    ONE(PAPI_unlock, KL_DOES_COUNT) \
    ONE(PAPI_unregister_thread, KL_DOES_CHANGE) \
    ONE(PAPI_write, KL_DOES_CHANGE)

#endif
