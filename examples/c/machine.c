/* What is told of components, of the modelled processor and of the process, and the model's
 * time. */
#include "papi.h"
#include "wanted.h"
#include <string.h>
#include <unistd.h>

static int initialized = 1, zeroed;

static void components(void) {
    const PAPI_component_info_t *info;
    WANT(PAPI_num_components(), 2);
    for (int i = 0; (info = PAPI_get_component_info(i)) != NULL; i++)
        printf("%d: %s, pmu %s, %d counters, %d native events, %d presets\n", info->CmpIdx,
               info->name, info->pmu_names[0], info->num_cntrs, info->num_native_events,
               info->num_preset_events);
    WANT(PAPI_get_component_index("net"), 1);
    WANT(PAPI_get_component_index("wire"), PAPI_ENOCMP);
    WANT(PAPI_get_component_info(-1) == NULL, 1);
    WANT(PAPI_disable_component(0), PAPI_ENOINIT);
    WANT(PAPI_disable_component_by_name("net"), PAPI_ENOINIT);
    WANT(PAPI_num_cmp_hwctrs(0), 3);
    WANT(PAPI_num_cmp_hwctrs(2), PAPI_ENOCMP);
    WANT(PAPI_get_event_component(PAPI_TOT_INS), 0);
    WANT(PAPI_get_event_component(PAPI_NATIVE_MASK + 99), PAPI_ENOEVNT);
}

static void hardware(void) {
    const PAPI_hw_info_t *info = PAPI_get_hardware_info();
    void *device = NULL;
    const char *model = NULL;
    unsigned cores = 0;
    WANT(info != NULL, 1);
    printf("%s %s: %d MHz, %d processor\n", info->vendor_string, info->model_string,
           info->cpu_max_mhz, info->totalcpus);
    WANT(info->mem_hierarchy.levels, 0);
    WANT(PAPI_enum_dev_type(PAPI_DEV_TYPE_ENUM__ALL, &device), PAPI_OK);
    WANT(PAPI_get_dev_attr(device, 0, PAPI_DEV_ATTR__CPU_CHAR_NAME, &model), PAPI_OK);
    WANT(strcmp(model, info->model_string), 0);
    WANT(PAPI_get_dev_attr(device, 0, PAPI_DEV_ATTR__CPU_UINT_CORE_COUNT, &cores), PAPI_OK);
    WANT(cores, 1);
    WANT(PAPI_get_dev_attr(device, 0, PAPI_DEV_ATTR__CUDA_UINT_SM_COUNT, &cores), PAPI_ENOSUPP);
    WANT(PAPI_get_dev_attr(device, 1, PAPI_DEV_ATTR__CPU_UINT_CORE_COUNT, &cores), PAPI_EINVAL);
    WANT(PAPI_enum_dev_type(PAPI_DEV_TYPE_ENUM__ALL, &device), PAPI_EINVAL);
    WANT(PAPI_enum_dev_type(PAPI_DEV_TYPE_ENUM__CUDA, &device), PAPI_EINVAL);
}

static int is_within(const void *start, const void *at, const void *end) {
    return (uintptr_t)start <= (uintptr_t)at && (uintptr_t)at < (uintptr_t)end;
}

static void process(void) {
    PAPI_dmem_info_t memory;
    const PAPI_exe_info_t *program = PAPI_get_executable_info();
    const PAPI_shlib_info_t *libraries = PAPI_get_shared_lib_info();
    WANT(PAPI_get_dmem_info(&memory), PAPI_OK);
    WANT(memory.resident > 0 && memory.size >= memory.resident && memory.pagesize > 0, 1);
    WANT(PAPI_get_dmem_info(NULL), PAPI_EINVAL);
    WANT(program != NULL && libraries != NULL, 1);
    const PAPI_address_map_t *map = &program->address_info;
    WANT(strcmp(map->name, "machine"), 0);
    WANT(program->fullname[0], '/');
    WANT(is_within(map->text_start, (void *)(uintptr_t)components, map->text_end), 1);
    WANT(is_within(map->data_start, &initialized, map->data_end), 1);
    WANT(is_within(map->bss_start, &zeroed, map->bss_end), 1);
    for (int i = 0; i < libraries->count; i++) {
        WANT(libraries->map[i].text_start != NULL, 1);
        WANT(libraries->map[i].text_start < libraries->map[i].text_end, 1);
    }
}

/* The attributes of the processor tell of the caches that the environment names. */
static void caches(void) {
    static const struct { PAPI_dev_attr_e attribute; unsigned value; } wanted[] = {
        { PAPI_DEV_ATTR__CPU_UINT_L1I_CACHE_SIZE, 16384 },
        { PAPI_DEV_ATTR__CPU_UINT_L1D_CACHE_SIZE, 32768 },
        { PAPI_DEV_ATTR__CPU_UINT_L1D_CACHE_LINE_SIZE, 64 },
        { PAPI_DEV_ATTR__CPU_UINT_L1D_CACHE_LINE_COUNT, 512 },
        { PAPI_DEV_ATTR__CPU_UINT_L1D_CACHE_ASSOC, 8 },
        { PAPI_DEV_ATTR__CPU_UINT_L2U_CACHE_SIZE, 0 },
        { PAPI_DEV_ATTR__CPU_UINT_L3U_CACHE_SIZE, 1048576 },
        { PAPI_DEV_ATTR__CPU_UINT_L3U_CACHE_LINE_COUNT, 8192 },
        { PAPI_DEV_ATTR__CPU_UINT_L3U_CACHE_ASSOC, 16 }, { PAPI_DEV_ATTR__CPU_UINT_FAMILY, 0 },
    };
    void *device = NULL;
    setenv("KISTALUB_CACHES",
           " l1d=32768,8,64  l3=1048576,16,128 dtlb=64,4,4096 l1i=16384,4,32 itlb=32,2,2147483647",
           1);
    WANT(PAPI_library_init(PAPI_VER_CURRENT), PAPI_VER_CURRENT);
    const PAPI_mh_info_t *told = &PAPI_get_hardware_info()->mem_hierarchy;
    WANT(told->levels, 3);
    const PAPI_mh_level_t *first = told->level, *last = told->level + 2;
    WANT(first->cache[0].type,
         PAPI_MH_TYPE_INST | PAPI_MH_TYPE_WB | PAPI_MH_TYPE_LRU | PAPI_MH_TYPE_RW_ALLOC);
    WANT(first->cache[1].type,
         PAPI_MH_TYPE_DATA | PAPI_MH_TYPE_WB | PAPI_MH_TYPE_LRU | PAPI_MH_TYPE_RW_ALLOC);
    WANT(last->cache[0].type,
         PAPI_MH_TYPE_UNIFIED | PAPI_MH_TYPE_WB | PAPI_MH_TYPE_LRU | PAPI_MH_TYPE_RW_ALLOC);
    WANT(first->tlb[0].type, PAPI_MH_TYPE_INST | PAPI_MH_TYPE_LRU);
    WANT(first->tlb[0].page_size, 2147483647);
    WANT(first->tlb[1].type, PAPI_MH_TYPE_DATA | PAPI_MH_TYPE_LRU);
    WANT(first->tlb[1].num_entries, 64);
    WANT(first->tlb[1].associativity, 4);
    PAPI_enum_dev_type(PAPI_DEV_TYPE_ENUM__FIRST, &device);
    WANT(PAPI_enum_dev_type(PAPI_DEV_TYPE_ENUM__ALL, &device), PAPI_OK);
    for (size_t i = 0; i < sizeof wanted / sizeof *wanted; i++) {
        unsigned value = 1;
        WANT(PAPI_get_dev_attr(device, 0, wanted[i].attribute, &value), PAPI_OK);
        WANT(value, wanted[i].value);
    }
    PAPI_shutdown();
    unsetenv("KISTALUB_CACHES");
}

/* The pmu's name in libpfm4 says whose processor it is. */
static void vendors(void) {
    static const struct { const char *pmu; int vendor; const char *name; } wanted[] = {
        { "ix86arch", PAPI_VENDOR_INTEL, "GenuineIntel" },
        { "skl_core", PAPI_VENDOR_INTEL, "GenuineIntel" },
        { "itanium2", PAPI_VENDOR_INTEL, "GenuineIntel" },
        { "AMD64_fam19h", PAPI_VENDOR_AMD, "AuthenticAMD" },
        { "arm_a64fx", PAPI_VENDOR_ARM_FUJITSU, "Fujitsu" },
        { "arm_n1", PAPI_VENDOR_ARM_ARM, "ARM" },
        { "power9", PAPI_VENDOR_IBM, "IBM" }, { "mips_74k", PAPI_VENDOR_MIPS, "MIPS" },
        { "sklcore", PAPI_VENDOR_UNKNOWN, "unknown" }, { "am", PAPI_VENDOR_UNKNOWN, "unknown" },
    };
    char before[4096], unit[] = "/tmp/kistalub_unit_XXXXXX";
    snprintf(before, sizeof before, "%s", getenv("KISTALUB_UNIT"));
    WANT(close(mkstemp(unit)), 0);
    setenv("KISTALUB_UNIT", unit, 1);
    for (size_t i = 0; i < sizeof wanted / sizeof *wanted; i++) {
        FILE *f = fopen(unit, "w");
        WANT(f != NULL, 1);
        fprintf(f,
                "COMPONENT,cpu,%s\nCOUNTER,C0,48,P\nEVENT,CYCLES,3c,C0,Cycles\nCOMPONENT,none,"
                "nothing\n",
                wanted[i].pmu);
        WANT(fclose(f), 0);
        WANT(PAPI_library_init(PAPI_VER_CURRENT), PAPI_VER_CURRENT);
        WANT(PAPI_num_components(), 2); /* one of them without a counter */
        WANT(PAPI_get_hardware_info()->vendor, wanted[i].vendor);
        WANT(strcmp(PAPI_get_hardware_info()->vendor_string, wanted[i].name), 0);
        PAPI_shutdown();
    }
    WANT(unlink(unit), 0);
    setenv("KISTALUB_UNIT", before, 1);
}

/* A cycle for each occurrence, at 1000 MHz. */
static void times(void) {
    uint32_t went = 0;
    long long counts[1], cycles = 0;
    int set = PAPI_NULL;
    WANT(PAPI_get_real_cyc(), 0);
    WANT(kistalub_go(2, &went), PAPI_OK);
    WANT(PAPI_get_real_cyc(), 2);
    WANT(PAPI_get_virt_cyc(), 2);
    WANT(PAPI_get_real_nsec(), 2);
    WANT(PAPI_get_virt_nsec(), 2);
    WANT(PAPI_get_real_usec(), 0);
    WANT(PAPI_create_eventset(&set), PAPI_OK);
    WANT(PAPI_add_named_event(set, "INST_RETIRED"), PAPI_OK);
    WANT(PAPI_start(set), PAPI_OK);
    WANT(kistalub_go(1, &went), PAPI_OK);
    WANT(PAPI_read_ts(set, counts, &cycles), PAPI_OK);
    WANT(counts[0], 1);
    WANT(cycles, 3);
    WANT(PAPI_read_ts(set, counts, NULL), PAPI_EINVAL);
}

int main(void) {
    WANT(PAPI_get_real_usec(), 0);
    WANT(PAPI_get_virt_usec(), 0);
    WANT(PAPI_get_hardware_info() == NULL, 1);
    WANT(PAPI_library_init(PAPI_VER_CURRENT), PAPI_VER_CURRENT);
    components();
    hardware();
    process();
    times();
    PAPI_shutdown();
    caches();
    vendors();
    /* A component that is disabled before the library begins is still told of, but has no
     * events. */
    WANT(PAPI_disable_component(0), PAPI_OK);
    WANT(PAPI_disable_component(99), PAPI_ENOCMP);
    WANT(PAPI_disable_component_by_name("net"), PAPI_OK);
    WANT(PAPI_library_init(PAPI_VER_CURRENT), PAPI_VER_CURRENT);
    int event = PAPI_NATIVE_MASK;
    WANT(PAPI_get_component_info(0)->disabled, PAPI_ECMP_DISABLED);
    WANT(PAPI_enum_cmp_event(&event, PAPI_ENUM_FIRST, 1), PAPI_ENOCMP);
    WANT(PAPI_enum_event(&event, PAPI_ENUM_FIRST), PAPI_ENOEVNT);
    WANT(PAPI_event_name_to_code("CYCLES", &event), PAPI_ENOEVNT);
    int set = PAPI_NULL;
    WANT(PAPI_create_eventset(&set), PAPI_OK);
    WANT(PAPI_add_named_event(set, "CYCLES"), PAPI_ENOEVNT);
    PAPI_shutdown();
    return 0;
}
