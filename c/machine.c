/* The modelled processor, and the process as the system knows it. */
#define _GNU_SOURCE
#include "calls.h"
#include "clock.h"
#include "components.h"
#include "locks.h"
#include "machine.h"
#include "papi.h"
#include "process.h"
#include "thread.h"

#include <link.h>
#include <pthread.h>
#include <stdint.h>
#include <stdio.h>
#include <stdlib.h>
#include <string.h>
#include <strings.h>
#include <unistd.h>

#define FIRST_ROOM 64

/* The first part of a pmu's name in libpfm4, and the vendor of its processors. */
static const struct { const char *front; int vendor; const char *name; } vendors[] = {
    { "amd64", PAPI_VENDOR_AMD, "AuthenticAMD" },
    { "arm_xgene", PAPI_VENDOR_ARM_APM, "Applied Micro" },
    { "arm_thunderx", PAPI_VENDOR_ARM_CAVIUM, "Cavium" },
    { "arm_a64fx", PAPI_VENDOR_ARM_FUJITSU, "Fujitsu" },
    { "arm_kunpeng", PAPI_VENDOR_ARM_HISILICON, "Hisilicon" },
    { "hisi", PAPI_VENDOR_ARM_HISILICON, "Hisilicon" },
    { "qcom", PAPI_VENDOR_ARM_QUALCOMM, "Qualcomm" },
    { "arm", PAPI_VENDOR_ARM_ARM, "ARM" },
    { "power", PAPI_VENDOR_IBM, "IBM" },
    { "ppc970", PAPI_VENDOR_IBM, "IBM" },
    { "s390", PAPI_VENDOR_IBM, "IBM" },
    { "cpum_", PAPI_VENDOR_IBM, "IBM" },
    { "ultra", PAPI_VENDOR_SUN, "Sun" },
    { "niagara", PAPI_VENDOR_SUN, "Sun" },
    { "mips", PAPI_VENDOR_MIPS, "MIPS" },
};

/* The pmus of Intel's processors in libpfm4, each also with what follows an underscore. */
static const char *const intel[] = {
    "ix86arch", "p6", "pii", "ppro", "pm", "coreduo", "core", "atom", "netburst", "nhm", "wsm",
    "snb", "ivb", "hsw", "bdw", "skl", "skx",
    "clx", "icl", "icx", "adl", "rpl", "spr", "emr", "slm", "glm", "tmt", "knl", "knm", "montecito",
    "itanium", "itanium2",
};

/* The processor, and whether it is described. Under kl_machine_lock. */
static struct { PAPI_hw_info_t hardware; int is_described; } machine;

/* Whether a pmu's name is this one, or begins with it and an underscore. */
static int is_of(const char *pmu, const char *front) {
    size_t n = strlen(front);
    return strncasecmp(pmu, front, n) == 0 && (pmu[n] == 0 || pmu[n] == '_');
}

/* The vendor that a pmu's name stands for. */
static int vendor_of(const char *pmu, const char **name) {
    for (size_t i = 0; i < sizeof vendors / sizeof *vendors; i++)
        if (strncasecmp(pmu, vendors[i].front, strlen(vendors[i].front)) == 0) {
            *name = vendors[i].name;
            return vendors[i].vendor;
        }
    for (size_t i = 0; i < sizeof intel / sizeof *intel; i++)
        if (is_of(pmu, intel[i])) {
            *name = "GenuineIntel";
            return PAPI_VENDOR_INTEL;
        }
    *name = "unknown";
    return PAPI_VENDOR_UNKNOWN;
}

/* One processor with one thread, whose model is the pmu of the unit's first component. */
static void describe_hardware(PAPI_hw_info_t *to, const char *pmu) {
    const char *vendor;
    int mhz = (int)kl_mhz();
    memset(to, 0, sizeof *to);
    to->ncpu = to->threads = to->cores = to->sockets = to->nnodes = to->totalcpus = 1;
    to->vendor = vendor_of(pmu, &vendor);
    snprintf(to->vendor_string, sizeof to->vendor_string, "%s", vendor);
    snprintf(to->model_string, sizeof to->model_string, "%s", pmu);
    kl_take_hierarchy(&to->mem_hierarchy);
    to->cpu_max_mhz = to->cpu_min_mhz = to->clock_mhz = mhz;
    to->mhz = (float)mhz;
}

const PAPI_hw_info_t *PAPI_get_hardware_info(void) {
    CALL(PAPI_get_hardware_info);
    char pmu[PAPI_MAX_STR_LEN];
    int code;
    thread_state *t = kl_current_thread(&code);
    if (!t || kl_component_text(t, 0, KISTALUB_COMPONENT_PMU, 0, pmu, sizeof pmu) != PAPI_OK)
        return NULL;
    pthread_mutex_lock(&kl_machine_lock);
    if (!machine.is_described) describe_hardware(&machine.hardware, pmu);
    machine.is_described = 1;
    pthread_mutex_unlock(&kl_machine_lock);
    return &machine.hardware;
}

/* The number that follows a name on a line of /proc/self/status, in KiB. */
static void take_kib(const char *line, const char *name, long long *into) {
    size_t n = strlen(name);
    if (strncmp(line, name, n) == 0 && line[n] == ':') sscanf(line + n + 1, "%lld", into);
}

int PAPI_get_dmem_info(PAPI_dmem_info_t *dest) {
    CALL(PAPI_get_dmem_info);
    if (!dest) RETURN(PAPI_EINVAL);
    FILE *status = fopen("/proc/self/status", "r");
    char line[PAPI_MAX_STR_LEN];
    long long files = 0, segments = 0;
    memset(dest, 0, sizeof *dest);
    dest->pagesize = sysconf(_SC_PAGESIZE);
    if (!status) RETURN(PAPI_ESYS);
    while (fgets(line, sizeof line, status)) {
        take_kib(line, "VmPeak", &dest->peak);
        take_kib(line, "VmSize", &dest->size);
        take_kib(line, "VmLck", &dest->locked);
        take_kib(line, "VmHWM", &dest->high_water_mark);
        take_kib(line, "VmRSS", &dest->resident);
        take_kib(line, "RssFile", &files);
        take_kib(line, "RssShmem", &segments);
        take_kib(line, "VmData", &dest->heap);
        take_kib(line, "VmStk", &dest->stack);
        take_kib(line, "VmExe", &dest->text);
        take_kib(line, "VmLib", &dest->library);
        take_kib(line, "VmPTE", &dest->pte);
    }
    fclose(status);
    dest->shared = files + segments;
    return PAPI_OK;
}

/* Places for libraries. Where more are needed, those that were given out stay as long as the
 * library: a program may read them. */
typedef struct maps { struct maps *former; int room; PAPI_address_map_t each[]; } maps;

/* The program and its libraries. Under kl_machine_lock. */
static struct { PAPI_exe_info_t executable; PAPI_shlib_info_t libraries; maps *places; } loaded;

/* What is known of the processor and the process ends with the library. */
void kl_machine_ends(void) {
    pthread_mutex_lock(&kl_machine_lock);
    machine.is_described = 0;
    loaded.libraries.map = NULL;
    loaded.libraries.count = 0;
    while (loaded.places) {
        maps *last = loaded.places;
        loaded.places = last->former;
        free(last);
    }
    pthread_mutex_unlock(&kl_machine_lock);
}

/* Room for one more library, whose places have those before it. */
static int make_room(int count) {
    if (loaded.places && count < loaded.places->room) return 1;
    int room = loaded.places ? 2 * loaded.places->room : FIRST_ROOM;
    maps *more = calloc(1, sizeof *more + (size_t)room * sizeof *more->each);
    if (!more) return 0;
    more->room = room;
    more->former = loaded.places;
    if (more->former) memcpy(more->each, more->former->each, (size_t)count * sizeof *more->each);
    loaded.places = more;
    return 1;
}

/* An end of a part: the least begin or the greatest end that was seen. */
static void widen(vptr_t *start, vptr_t *end, uintptr_t from, uintptr_t to) {
    if (from >= to) return;
    if (!*start || from < (uintptr_t)*start) *start = (vptr_t)from;
    if (to > (uintptr_t)*end) *end = (vptr_t)to;
}

/* Where the code, the data and the zeroed data of an object lie. */
static void take_parts(const struct dl_phdr_info *object, PAPI_address_map_t *map) {
    for (size_t i = 0; i < object->dlpi_phnum; i++) {
        const ElfW(Phdr) *part = object->dlpi_phdr + i;
        if (part->p_type != PT_LOAD) continue;
        uintptr_t from = object->dlpi_addr + part->p_vaddr, filled = from + part->p_filesz;
        if (part->p_flags & PF_X) widen(&map->text_start, &map->text_end, from, filled);
        else if (part->p_flags & PF_W) {
            widen(&map->data_start, &map->data_end, from, filled);
            widen(&map->bss_start, &map->bss_end, filled, from + part->p_memsz);
        }
    }
}

/* Another thread may read what was given before: it is written only where it has changed. */
static void keep(void *at, const void *now, size_t size) {
    if (memcmp(at, now, size)) memcpy(at, now, size);
}

/* How far the objects were looked at. */
typedef struct { int is_first, count; } looked;

/* Takes the executable, which comes first and has no name, and the libraries, which have one. */
static int take_object(struct dl_phdr_info *object, size_t size, void *seen) {
    (void)size;
    looked *l = seen;
    const char *name = l->is_first         ? loaded.executable.fullname
                       : object->dlpi_name ? object->dlpi_name
                                           : "";
    const char *slash = l->is_first ? strrchr(name, '/') : NULL;
    PAPI_address_map_t now;
    memset(&now, 0, sizeof now);
    snprintf(now.name, sizeof now.name, "%s", slash ? slash + 1 : name);
    take_parts(object, &now);
    if (l->is_first) keep(&loaded.executable.address_info, &now, sizeof now);
    else if (*name) {
        if (!make_room(l->count)) return 1;
        keep(&loaded.places->each[l->count++], &now, sizeof now);
    }
    l->is_first = 0;
    return 0;
}

/* Looks at what is loaded now, and says whether there was room for all. */
static int look_at_objects(void) {
    looked l = { 1, 0 };
    char path[sizeof loaded.executable.fullname] = "";
    ssize_t n = readlink("/proc/self/exe", path, sizeof path - 1);
    if (n > 0) keep(loaded.executable.fullname, path, sizeof path);
    int has_room = dl_iterate_phdr(take_object, &l) == 0;
    PAPI_address_map_t *each = loaded.places ? loaded.places->each : NULL;
    keep(&loaded.libraries.map, &each, sizeof each);
    keep(&loaded.libraries.count, &l.count, sizeof l.count);
    return has_room;
}

const PAPI_exe_info_t *PAPI_get_executable_info(void) {
    CALL(PAPI_get_executable_info);
    if (!kl_is_open()) return NULL;
    pthread_mutex_lock(&kl_machine_lock);
    look_at_objects();
    pthread_mutex_unlock(&kl_machine_lock);
    return &loaded.executable;
}

const PAPI_shlib_info_t *PAPI_get_shared_lib_info(void) {
    CALL(PAPI_get_shared_lib_info);
    if (!kl_is_open()) return NULL;
    pthread_mutex_lock(&kl_machine_lock);
    int has_room = look_at_objects();
    pthread_mutex_unlock(&kl_machine_lock);
    return has_room ? &loaded.libraries : NULL;
}
