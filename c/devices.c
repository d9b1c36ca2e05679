/* Devices: the modelled processor is the only one. */
#include "posix.h"
#include "calls.h"
#include "papi.h"
#include "process.h"

#include <stddef.h>

/* Where the enumeration of the thread stands: 1 after the processor was given. */
static _Thread_local int given;

/* What a handle points to: the type of the device. */
static int processor = PAPI_DEV_TYPE_ID__CPU;

int PAPI_enum_dev_type(int enum_modifier, void **handle) {
    CALL(PAPI_enum_dev_type);
    if (!kl_is_open()) RETURN(PAPI_ENOINIT);
    if (!handle) RETURN(PAPI_EINVAL);
    if (enum_modifier == PAPI_DEV_TYPE_ENUM__FIRST || given ||
        !(enum_modifier & PAPI_DEV_TYPE_ENUM__CPU)) {
        given = 0;
        *handle = NULL;
        RETURN(PAPI_EINVAL);
    }
    given = 1;
    *handle = &processor;
    return PAPI_OK;
}

int PAPI_get_dev_type_attr(void *handle, PAPI_dev_type_attr_e attr, void *value) {
    CALL(PAPI_get_dev_type_attr);
    const PAPI_hw_info_t *hardware = PAPI_get_hardware_info();
    if (!hardware) RETURN(PAPI_ENOINIT);
    if (handle != &processor || !value) RETURN(PAPI_EINVAL);
    switch (attr) {
    case PAPI_DEV_TYPE_ATTR__INT_PAPI_ID: *(int *)value = PAPI_DEV_TYPE_ID__CPU; return PAPI_OK;
    case PAPI_DEV_TYPE_ATTR__INT_VENDOR_ID: *(int *)value = hardware->vendor; return PAPI_OK;
    case PAPI_DEV_TYPE_ATTR__CHAR_NAME:
        *(const char **)value = hardware->vendor_string;
        return PAPI_OK;
    case PAPI_DEV_TYPE_ATTR__INT_COUNT: *(int *)value = 1; return PAPI_OK;
    case PAPI_DEV_TYPE_ATTR__CHAR_STATUS:
        *(const char **)value = "Device Initialized";
        return PAPI_OK;
    }
    RETURN(PAPI_ENOSUPP);
}

/* The cache that an attribute is of, which may be one that the model does not have. Attributes of
 * one kind stand in a row: L1I, L1D, L2U, L3U. */
static const PAPI_mh_cache_info_t *cache_of(const PAPI_mh_info_t *caches, unsigned place) {
    static const struct { int level, cache; } places[] = { { 0, 0 }, { 0, 1 }, { 1, 0 }, { 2, 0 } };
    return &caches->level[places[place].level].cache[places[place].cache];
}

#define CACHES 4

_Static_assert(PAPI_DEV_ATTR__CPU_UINT_L1I_CACHE_ASSOC ==
                   PAPI_DEV_ATTR__CPU_UINT_L1I_CACHE_SIZE + 3 * CACHES,
               "four attributes of four caches");

static unsigned cache_attribute(const PAPI_mh_info_t *caches, unsigned attribute) {
    const PAPI_mh_cache_info_t *cache = cache_of(caches, attribute % CACHES);
    switch (attribute / CACHES) {
    case 0: return (unsigned)cache->size;
    case 1: return (unsigned)cache->line_size;
    case 2: return (unsigned)cache->num_lines;
    default: return (unsigned)cache->associativity;
    }
}

int PAPI_get_dev_attr(void *handle, int id, PAPI_dev_attr_e attr, void *value) {
    CALL(PAPI_get_dev_attr);
    const PAPI_hw_info_t *hardware = PAPI_get_hardware_info();
    if (!hardware) RETURN(PAPI_ENOINIT);
    if (handle != &processor || !value || id < 0 || id >= hardware->totalcpus) RETURN(PAPI_EINVAL);
    switch (attr) {
    case PAPI_DEV_ATTR__CPU_CHAR_NAME:
        *(const char **)value = hardware->model_string;
        return PAPI_OK;
    case PAPI_DEV_ATTR__CPU_UINT_SOCKET_COUNT:
    case PAPI_DEV_ATTR__CPU_UINT_NUMA_COUNT:
    case PAPI_DEV_ATTR__CPU_UINT_CORE_COUNT:
    case PAPI_DEV_ATTR__CPU_UINT_THREAD_COUNT:
    case PAPI_DEV_ATTR__CPU_UINT_THR_PER_NUMA: *(unsigned *)value = 1; return PAPI_OK;
    default: break;
    }
    if (attr > PAPI_DEV_ATTR__CPU_UINT_THR_PER_NUMA) RETURN(PAPI_ENOSUPP);
    unsigned of_caches = (unsigned)attr - PAPI_DEV_ATTR__CPU_UINT_L1I_CACHE_SIZE;
    *(unsigned *)value = of_caches < 4 * CACHES
                             ? cache_attribute(&hardware->mem_hierarchy, of_caches)
                             : 0; /* family and memory: the model has none */
    return PAPI_OK;
}
