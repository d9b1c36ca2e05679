/* A program that runs with another user's rights takes no file from its environment. The program
 * itself is copied, and runs as nobody. */
#define _DEFAULT_SOURCE
#include "papi.h"
#include "wanted.h"
#include <string.h>
#include <sys/auxv.h>
#include <sys/stat.h>
#include <sys/wait.h>
#include <unistd.h>

#define NOBODY 65534
#define SECURE 3

/* Asked by AddressSanitizer, which cannot look for leaks in a process that has another user's
 * rights. */
int __lsan_is_turned_off(void);
int __lsan_is_turned_off(void) { return getauxval(AT_SECURE) != 0; }

static void copy(const char *to) {
    FILE *in = fopen("/proc/self/exe", "rb"), *out = fopen(to, "wb");
    WANT(in && out, 1);
    for (int c; (c = getc(in)) != EOF;) putc(c, out);
    WANT(fclose(in) + fclose(out), 0);
}

int main(int argc, char **argv) {
    char folder[] = "/tmp/kistalub_user_XXXXXX", path[64];
    int status = 0;
    if (argc == 2 && !strcmp(argv[1], "again")) {
        if (!getauxval(AT_SECURE)) return 0;
        return PAPI_library_init(PAPI_VER_CURRENT) == PAPI_ESYS && PAPI_get_real_usec() == 0
                   ? SECURE
                   : 1;
    }
    WANT(PAPI_library_init(PAPI_VER_CURRENT), PAPI_VER_CURRENT);
    PAPI_shutdown();
    WANT(mkdtemp(folder) != NULL, 1);
    WANT(chmod(folder, 0755), 0);
    snprintf(path, sizeof path, "%s/copy", folder);
    copy(path);
    int can = geteuid() == 0 && chown(path, NOBODY, NOBODY) == 0 && chmod(path, 04755) == 0;
    fflush(stdout);
    pid_t child = can ? fork() : -1;
    if (child == 0) {
        WANT(setenv("KISTALUB_CLOCK", "real", 1), 0);
        WANT(freopen("/dev/null", "w", stderr) != NULL, 1);
        execl(path, path, "again", (char *)NULL);
        _exit(1);
    }
    if (child > 0) WANT(waitpid(child, &status, 0), child);
    WANT(unlink(path) + rmdir(folder), 0);
    /* without root, or where no program has another user's rights, there is nothing to see */
    WANT(child < 0 ||
             (WIFEXITED(status) && (WEXITSTATUS(status) == SECURE || WEXITSTATUS(status) == 0)),
         1);
    puts("its own environment is taken alone");
    return 0;
}
