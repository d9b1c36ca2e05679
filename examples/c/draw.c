/* Draws a script and two streams by a number: draw NUMBER SCRIPT STREAM0 STREAM1. */
#include <stdint.h>
#include <stdio.h>
#include <stdlib.h>

static uint64_t state;

/* One of 0 to n - 1, by xorshift. */
static unsigned one_of(unsigned n) {
    state ^= state << 13;
    state ^= state >> 7;
    state ^= state << 17;
    return (unsigned)(state >> 11) % n;
}

static const char *const events[] = {
    "INST_RETIRED", "INST_RETIRED:k", "CYCLES", "CYCLES:c=2", "BR_INST", "BR_INST:TAKEN", "BR_MISP",
    "CACHE", "MEM:LOADS", "MEM", "REF", "PACKETS", "NOPE",
    "INST_RETIRED:x", "PAPI_TOT_INS", "PAPI_TOT_CYC", "PAPI_RES_STL", "PAPI_LST_INS", "PAPI_BR_PRC",
    "PAPI_L1_DCM",
};
static const char *const on_set[] = { "destroy", "cleanup", "start", "stop",  "read",
                                      "accum",   "reset",   "state", "events" };
static const char *const codes[] = { "c0 00", "3c 00", "c4 01", "c4 02", "c5 00",
                                     "2e 00", "d0 01", "d0 02", "00 00" };

static const char *event(void) { return events[one_of(sizeof events / sizeof *events)]; }

static void stream(const char *path) {
    FILE *f = fopen(path, "w");
    if (!f) exit(2);
    for (unsigned n = one_of(400); n > 0; n--)
        if (one_of(12) == 0) fprintf(f, "1 10 00 u %u %x\n", 1 + one_of(255), one_of(4096));
        else
            fprintf(f, "0 %s %c %u %x\n", codes[one_of(9)], one_of(4) ? 'u' : 'k', 1 + one_of(255),
                    one_of(4096));
    if (one_of(10) == 0) fprintf(f, "a bad line\n");
    fclose(f);
}

int main(int argc, char **argv) {
    if (argc != 5) return 2;
    state = 0x9e3779b97f4a7c15u ^ (strtoull(argv[1], NULL, 10) + 1) * 0xbf58476d1ce4e5b9u;
    for (int i = 0; i < 8; i++) one_of(2);
    FILE *f = fopen(argv[2], "w");
    if (!f) return 2;
    /* codes of native events are the thread's here, and all threads' in papi_run: they are drawn
     * for one thread alone */
    unsigned several = one_of(2);
    for (unsigned n = 20 + one_of(60); n > 0; n--) {
        unsigned thread = several && one_of(4) == 0, set = one_of(8) ? one_of(2) : one_of(5);
        switch (one_of(16)) {
        case 0: fprintf(f, "%u create\n", thread); break;
        case 1: case 2: case 3: fprintf(f, "%u add %u %s\n", thread, set, event()); break;
        case 4: fprintf(f, "%u remove %u %s\n", thread, set, event()); break;
        case 5: fprintf(f, "%u overflow %u %s %u\n", thread, set, event(), one_of(3) * 500); break;
        case 6: fprintf(f, "%u multiplex %u %u\n", thread, set, one_of(5)); break;
        case 7: fprintf(f, "%u domain %u %u\n", thread, set, one_of(5)); break;
        case 8: case 9: case 10: fprintf(f, "%u run %u\n", thread, one_of(60)); break;
        case 11: fprintf(f, "%u start %u\n", thread, set); break;
        case 12:
            fprintf(f, "%u %s\n", thread,
                    one_of(3) == 0 ? "threads"
                    : one_of(2)    ? "register"
                                   : "unregister");
            break;
        case 13: fprintf(f, "%u component %u %u\n", thread, set, one_of(3)); break;
        default:
            fprintf(f, "%u %s %u\n", thread, on_set[one_of(sizeof on_set / sizeof *on_set)], set);
            break;
        }
        if (!several && one_of(16) == 0) fprintf(f, "0 code %s\n", event());
        if (!several && one_of(16) == 0) fprintf(f, "0 name 0x4000000%u\n", one_of(4));
    }
    fclose(f);
    stream(argv[3]);
    stream(argv[4]);
    return 0;
}
