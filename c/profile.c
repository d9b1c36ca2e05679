/* Profiles: PAPI_profil(3), PAPI_sprofil(3). */
#include "posix.h"
#include "calls.h"
#include "papi.h"
#include "sets.h"
#include "thread.h"
#include "watches.h"

#include <limits.h>
#include <stdint.h>
#include <string.h>

#define LARGEST_SCALE 131072
#define WHOLE_SCALE 65536
/* The scale that puts each address of a region that begins at 0 into one bucket. */
#define ONE_BUCKET_SCALE 2

static const int known_flags = PAPI_PROFIL_RANDOM | PAPI_PROFIL_WEIGHTED | PAPI_PROFIL_COMPRESS |
                               PAPI_PROFIL_BUCKETS | PAPI_PROFIL_FORCE_SW | PAPI_PROFIL_DATA_EAR |
                               PAPI_PROFIL_INST_EAR;

static unsigned width_of(int flags) {
    return flags & PAPI_PROFIL_BUCKET_64 ? 8 : flags & PAPI_PROFIL_BUCKET_32 ? 4 : 2;
}

/* At most one width of buckets is asked for, and nothing that is not known. */
static int are_flags(int flags) {
    int widths = flags & PAPI_PROFIL_BUCKETS;
    return !(flags & ~known_flags) && !(widths & (widths - 1));
}

/* From 0 to 65535, the same in each run. */
static unsigned draw(thread_state *t) {
    t->drawn = t->drawn * 1664525u + 1013904223u;
    return t->drawn >> 16;
}

/* Whether a hit on a bucket with this count is dropped: a random one of four, or the more often the
 * more the bucket has. */
static int is_dropped(thread_state *t, int flags, uint64_t count) {
    return (flags & PAPI_PROFIL_RANDOM && draw(t) <= USHRT_MAX / 4) ||
           (flags & PAPI_PROFIL_COMPRESS && draw(t) < count);
}

/* Adds 1 to the bucket, which has this width. */
static void add_one(thread_state *t, unsigned char *at, unsigned width, int flags) {
    uint16_t count16;
    uint32_t count32;
    uint64_t count = 0;
    if (width == 2) {
        memcpy(&count16, at, 2);
        count = count16;
    } else if (width == 4) {
        memcpy(&count32, at, 4);
        count = count32;
    } else memcpy(&count, at, 8);
    if (is_dropped(t, flags, count)) return;
    count++;
    count16 = (uint16_t)count;
    count32 = (uint32_t)count;
    memcpy(at,
           width == 2   ? (void *)&count16
           : width == 4 ? (void *)&count32
                        : (void *)&count,
           width);
}

/* The region that begins last before the address, and else the first. */
static const PAPI_sprofil_t *region_of(const kl_watch *w, unsigned long long address) {
    const PAPI_sprofil_t *regions = w->regions ? w->regions : &w->own, *best = NULL;
    for (int i = 0; i < w->region_count; i++) {
        unsigned long long begin = (uintptr_t)regions[i].pr_off;
        if (begin <= address && (!best || begin > (uintptr_t)best->pr_off)) best = &regions[i];
    }
    return best || w->region_count == 0 ? best : regions;
}

void kl_hit(thread_state *t, kl_watch *w, unsigned long long address) {
    const PAPI_sprofil_t *region = region_of(w, address);
    if (!region || !region->pr_base) return;
    unsigned long long begin = (uintptr_t)region->pr_off, place = 0;
    if (address < begin) return;
    if (begin != 0 || region->pr_scale != ONE_BUCKET_SCALE) {
        if (region->pr_scale && address - begin > ULLONG_MAX / region->pr_scale) return;
        place = (address - begin) * region->pr_scale >> 17;
    }
    unsigned width = width_of(w->flags);
    if (place < region->pr_size / width)
        add_one(t, (unsigned char *)region->pr_base + place * width, width, w->flags);
}

static int are_scaled(const PAPI_sprofil_t *regions, int count) {
    for (int i = 0; i < count; i++) {
        unsigned scale = regions[i].pr_scale;
        if (scale != LARGEST_SCALE && (scale > WHOLE_SCALE || scale < 2)) return 0;
    }
    return 1;
}

/* Profiles an event by these regions, or ends its profile. They are the program's, or the watch has
 * one of its own. */
static int set_profile(thread_state *t, int set, int event, int threshold, int flags,
                       const PAPI_sprofil_t *regions, int count, int is_own) {
    uint32_t own_code = 0;
    kl_watch *w = NULL;
    int code = kl_find_watch(t, set, event, &own_code, &w);
    if (code != PAPI_OK) return code;
    if (!are_scaled(regions, count) || threshold < 0 || (threshold == 0 && !w->profiled) ||
        !are_flags(flags))
        return PAPI_EINVAL;
    code = kl_set_threshold(t, set, own_code, threshold, w);
    if (code != PAPI_OK || threshold == 0) return code;
    w->profiled = 1;
    w->flags = flags;
    w->region_count = count;
    w->regions = is_own ? NULL : regions;
    if (is_own) w->own = *regions;
    kl_note_watches(t, kl_set_of(t, set));
    return PAPI_OK;
}

int PAPI_sprofil(PAPI_sprofil_t *prof, int profcnt, int set, int event, int threshold, int flags) {
    CALL(PAPI_sprofil);
    HERE(t);
    RETURN(
        set_profile(t, set, event, threshold, flags, prof, prof && profcnt > 0 ? profcnt : 0, 0));
}

int PAPI_profil(void *buf, unsigned bufsiz, vptr_t offset, unsigned scale, int set, int event,
                int threshold, int flags) {
    CALL(PAPI_profil);
    HERE(t);
    PAPI_sprofil_t region = {
        .pr_base = buf, .pr_size = bufsiz, .pr_off = offset, .pr_scale = scale
    };
    RETURN(set_profile(t, set, event, threshold, flags, &region, threshold > 0, 1));
}
