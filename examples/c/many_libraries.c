/* A program with many shared libraries sees each of them: it opens copies of the one that it is
 * given. */
#define _DEFAULT_SOURCE
#include "papi.h"
#include "wanted.h"
#include <dlfcn.h>
#include <string.h>
#include <unistd.h>

#define COPIES 200

static void *opened[COPIES];
static char folder[] = "/tmp/kistalub_libraries_XXXXXX";

static void copy(const char *from, const char *to) {
    FILE *in = fopen(from, "rb"), *out = fopen(to, "wb");
    WANT(in && out, 1);
    for (int c; (c = getc(in)) != EOF;) putc(c, out);
    WANT(fclose(in) + fclose(out), 0);
}

static int seen(void) {
    const PAPI_shlib_info_t *all = PAPI_get_shared_lib_info();
    int n = 0;
    WANT(all != NULL, 1);
    for (int i = 0; i < all->count; i++)
        n += strncmp(all->map[i].name, folder, strlen(folder)) == 0;
    return n;
}

int main(int argc, char **argv) {
    char path[128];
    WANT(argc, 2);
    WANT(mkdtemp(folder) != NULL, 1);
    WANT(PAPI_library_init(PAPI_VER_CURRENT), PAPI_VER_CURRENT);
    const PAPI_shlib_info_t *first = PAPI_get_shared_lib_info();
    const PAPI_address_map_t *map = first->map;
    char name[sizeof map->name];
    strcpy(name, map->name);
    for (int i = 0; i < COPIES; i++) {
        snprintf(path, sizeof path, "%s/%d.so", folder, i);
        copy(argv[1], path);
        WANT((opened[i] = dlopen(path, RTLD_NOW)) != NULL, 1);
        if (i % 50 == 49) WANT(seen(), i + 1);
    }
    WANT(strcmp(map->name, name), 0); /* what was given before is there still */
    for (int i = 0; i < COPIES; i++) {
        snprintf(path, sizeof path, "%s/%d.so", folder, i);
        WANT(unlink(path), 0);
        WANT(dlclose(opened[i]), 0);
    }
    WANT(rmdir(folder), 0);
    PAPI_shutdown();
    puts("each library is seen");
    return 0;
}
