/* Profiles by regions, scales and flags: PAPI_profil(3), PAPI_sprofil(3). */
#include "papi.h"
#include "wanted.h"
#include <unistd.h>

#define LINES 20001

static int set, event;

static void begin(const char *stream) {
    set = PAPI_NULL;
    if (stream) WANT(kistalub_init(getenv("KISTALUB_UNIT"), NULL, NULL, stream), PAPI_OK);
    WANT(PAPI_library_init(PAPI_VER_CURRENT), PAPI_VER_CURRENT);
    WANT(PAPI_create_eventset(&set), PAPI_OK);
    WANT(PAPI_event_name_to_code("INST_RETIRED", &event), PAPI_OK);
    WANT(PAPI_add_event(set, event), PAPI_OK);
}

static void count(uint32_t occurrences) {
    WANT(PAPI_start(set), PAPI_OK);
    WANT(kistalub_go(occurrences, NULL), PAPI_OK);
    WANT(PAPI_stop(set, NULL), PAPI_OK);
}

static int profil(unsigned *buckets, unsigned size, unsigned scale, int flags) {
    return PAPI_profil(buckets, size, (vptr_t)0x400000, scale, set, event, 256, flags);
}

/* The stream passes the threshold at the addresses 400000, 400010, 400014, 40001f, 400030 and
 * 400040. */
static void regions(void) {
    unsigned first[2] = { 0 }, second[16] = { 0 }, third[4] = { 0 }, none[16] = { 0 };
    PAPI_sprofil_t parts[] = {
        { .pr_base = third,
          .pr_size = sizeof third,
          .pr_off = (vptr_t)0x400030,
          .pr_scale = 131072 },
        { .pr_base = first,
          .pr_size = sizeof first,
          .pr_off = (vptr_t)0x400000,
          .pr_scale = 131072 },
        { .pr_base = second,
          .pr_size = sizeof second,
          .pr_off = (vptr_t)0x400010,
          .pr_scale = 65536 },
        /* The one before has its hits, as in PAPI. */
        { .pr_base = none, .pr_size = sizeof none, .pr_off = (vptr_t)0x400010, .pr_scale = 65536 },
    };
    begin(NULL);
    WANT(PAPI_sprofil(parts, 3, set, event, 0, PAPI_PROFIL_BUCKET_32), PAPI_EINVAL);
    WANT(PAPI_sprofil(parts, 4, set, event, 256, PAPI_PROFIL_BUCKET_32), PAPI_OK);
    count(100);
    printf("first %u %u\nsecond", first[0], first[1]);
    for (int i = 0; i < 16; i++) printf(" %u", second[i]);
    printf("\nthird %u %u\n", third[0], third[1]);
    for (int i = 0; i < 16; i++) WANT(none[i], 0);
    WANT(PAPI_sprofil(NULL, 0, set, event, 0, PAPI_PROFIL_BUCKET_32), PAPI_OK);
    WANT(PAPI_sprofil(parts, 1, set, event, 256, PAPI_PROFIL_BUCKET_32), PAPI_OK);
    WANT(PAPI_sprofil(NULL, 0, set, event, 0, PAPI_PROFIL_BUCKET_32), PAPI_OK);
    parts[1].pr_scale = 1;
    WANT(PAPI_sprofil(parts, 3, set, event, 256, PAPI_PROFIL_BUCKET_32), PAPI_EINVAL);
    WANT(PAPI_sprofil(parts, 3, 7, event, 256, PAPI_PROFIL_BUCKET_32), PAPI_ENOEVST);
    PAPI_shutdown();
}

static void refused(void) {
    unsigned buckets[1];
    static const unsigned scales[] = { 0, 1, 65537, 131071, 131073 };
    begin(NULL);
    for (size_t i = 0; i < sizeof scales / sizeof *scales; i++)
        WANT(profil(buckets, sizeof buckets, scales[i], 0), PAPI_EINVAL);
    WANT(profil(buckets, sizeof buckets, 2, 0x200), PAPI_EINVAL);
    WANT(profil(buckets, sizeof buckets, 2, PAPI_PROFIL_BUCKET_16 | PAPI_PROFIL_BUCKET_64),
         PAPI_EINVAL);
    WANT(profil(NULL, sizeof buckets, 2, 0), PAPI_OK); /* nothing is counted, as in PAPI */
    WANT(profil(NULL, sizeof buckets, 2, 0), PAPI_OK);
    WANT(PAPI_profil(NULL, 0, 0, 2, set, event, 0, 0), PAPI_OK);
    WANT(PAPI_profil(buckets, sizeof buckets, 0, 2, set, event, -1, 0), PAPI_EINVAL);
    WANT(PAPI_profil(buckets, sizeof buckets, 0, 2, set, event, 0, 0), PAPI_EINVAL);
    WANT(PAPI_profil(buckets, sizeof buckets, 0, 2, set, event + 1, 256, 0), PAPI_ENOEVNT);
    WANT(PAPI_profil(buckets, sizeof buckets, 0, 2, 7, event, 256, 0), PAPI_ENOEVST);
    PAPI_shutdown();
}

/* The hits that are left when this flag is set. */
static unsigned hits(const char *stream, int flag) {
    unsigned bucket = 0;
    begin(stream);
    WANT(profil(&bucket, sizeof bucket, 2, PAPI_PROFIL_BUCKET_32 | flag), PAPI_OK);
    count(LINES);
    PAPI_shutdown();
    return bucket;
}

int main(void) {
    char stream[] = "/tmp/kistalub_profiles_XXXXXX";
    FILE *f = fdopen(mkstemp(stream), "w");
    WANT(f != NULL, 1);
    for (int i = 0; i < LINES; i++) fputs("0 c0 00 u 255 400000\n", f);
    WANT(fclose(f), 0);
    regions();
    refused();
    unsigned all = hits(stream, 0), some = hits(stream, PAPI_PROFIL_RANDOM),
             few = hits(stream, PAPI_PROFIL_COMPRESS);
    WANT(hits(stream, PAPI_PROFIL_WEIGHTED), all);
    WANT(some > all / 100 * 72 && some < all / 100 * 78, 1);
    WANT(few < all && few > all / 2, 1);
    WANT(hits(stream, PAPI_PROFIL_RANDOM), some);
    WANT(hits(stream, PAPI_PROFIL_COMPRESS), few);
    puts("each as wanted");
    WANT(unlink(stream), 0);
    return 0;
}
