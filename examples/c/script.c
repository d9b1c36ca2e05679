/* Makes the calls of a script through kistalub.h, and prints the replies as papi_run does.
 *
 * script UNIT PRESETS CPU SCRIPT STREAM...
 *
 * PRESETS and CPU may be empty. Beside PAPI_ECNFLCT papi_run says which events clash; here that is
 * left out. */
#include "kistalub.h"
#include <stdio.h>
#include <stdlib.h>
#include <string.h>

typedef struct { unsigned char *bytes; size_t length; } text;

static text file(const char *path) {
    text t = { malloc(1), 0 };
    FILE *f = *path ? fopen(path, "rb") : NULL;
    int c;
    if (!*path) return t;
    if (!f) { fprintf(stderr, "no such file: %s\n", path); exit(2); }
    while ((c = getc(f)) != EOF) {
        if ((t.length & (t.length - 1)) == 0) t.bytes = realloc(t.bytes, 2 * t.length + 1);
        t.bytes[t.length++] = (unsigned char)c;
    }
    fclose(f);
    return t;
}

static const char *code_name(int code) {
    switch (code) {
    case 0: return "PAPI_OK";
    case -1: return "PAPI_EINVAL";
    case -2: return "PAPI_ENOMEM";
    case -3: return "PAPI_ESYS";
    case -7: return "PAPI_ENOEVNT";
    case -8: return "PAPI_ECNFLCT";
    case -9: return "PAPI_ENOTRUN";
    case -10: return "PAPI_EISRUN";
    case -11: return "PAPI_ENOEVST";
    case -16: return "PAPI_ENOINIT";
    case -17: return "PAPI_ENOCMP";
    case -22: return "PAPI_EATTR";
    case -23: return "PAPI_ECOUNT";
    case -24: return "PAPI_ECOMBO";
    default: return "?";
    }
}

static kistalub threads[64];
static int registered[64];

static int given(int (*call)(kistalub *, uint32_t, int64_t *, size_t, uint32_t *), kistalub *h,
                 uint32_t set, char *rest) {
    int64_t values[32];
    uint32_t count = 0;
    int code = call(h, set, values, 32, &count);
    for (uint32_t i = 0; code == 0 && i < count; i++)
        rest += sprintf(rest, " %lld", (long long)values[i]);
    return code;
}

static int named(kistalub *h, uint32_t code, char *rest) {
    unsigned char name[1024];
    uint64_t length = 0;
    int answer = kistalub_code_to_name(h, code, name, sizeof name, &length);
    if (answer == 0) sprintf(rest, " %.*s", (int)length, (char *)name);
    return answer;
}

static int listed(kistalub *h, uint32_t set, char *rest) {
    uint32_t codes[32];
    uint64_t count = 0;
    int answer = kistalub_list_events(h, set, codes, 32, &count);
    for (uint64_t i = 0; answer == 0 && i < count; i++) {
        if (named(h, codes[i], rest) != 0) return -6;
        rest += strlen(rest);
    }
    return answer;
}

/* Makes the call of a line; what follows the code goes into `rest`. */
static int make(unsigned long thread, const char *call, const char *a, const char *b, const char *c,
                char *rest) {
    kistalub *h = &threads[thread];
    uint32_t set = (uint32_t)strtoul(a, NULL, 10), number = (uint32_t)strtoul(b, NULL, 10), out = 0;
    const unsigned char *name = (const unsigned char *)b;
    int code = 0;
    if (!strcmp(call, "register")) {
        code = kistalub_register(h);
        if (code == 0) registered[thread] = 1;
        return code;
    }
    if (!strcmp(call, "unregister")) {
        code = kistalub_unregister(h);
        if (code == 0) registered[thread] = 0;
        return code;
    }
    if (!strcmp(call, "threads")) {
        for (int i = 0; i < 64; i++) if (registered[i]) rest += sprintf(rest, " %d", i);
        return 0;
    }
    if (!strcmp(call, "create")) {
        code = kistalub_create(h, &out);
        if (code == 0) sprintf(rest, " %u", (unsigned)out);
        return code;
    }
    if (!strcmp(call, "destroy")) return kistalub_destroy(h, set);
    if (!strcmp(call, "cleanup")) return kistalub_cleanup(h, set);
    if (!strcmp(call, "add")) return kistalub_add_named(h, set, name, strlen(b));
    if (!strcmp(call, "remove")) return kistalub_remove_named(h, set, name, strlen(b));
    if (!strcmp(call, "overflow"))
        return kistalub_overflow_named(h, set, name, strlen(b), strtoull(c, NULL, 10));
    if (!strcmp(call, "component")) return kistalub_assign_component(h, set, number);
    if (!strcmp(call, "domain")) return kistalub_set_domain(h, set, number);
    if (!strcmp(call, "multiplex")) return kistalub_set_multiplex(h, set, number);
    if (!strcmp(call, "start")) return kistalub_start(h, set);
    if (!strcmp(call, "stop")) return given(kistalub_stop, h, set, rest);
    if (!strcmp(call, "read")) return given(kistalub_read, h, set, rest);
    if (!strcmp(call, "accum")) return given(kistalub_accum, h, set, rest);
    if (!strcmp(call, "reset")) return kistalub_reset(h, set);
    if (!strcmp(call, "events")) return listed(h, set, rest);
    if (!strcmp(call, "state")) {
        code = kistalub_state(h, set, &out);
        if (code == 0) sprintf(rest, " 0x%02x", (unsigned)out);
        return code;
    }
    if (!strcmp(call, "run")) {
        kistalub_passing passings[32];
        uint32_t consumed = 0;
        uint64_t told = 0, all = 0;
        kistalub_fault fault;
        do {
            code = kistalub_run(h, set - consumed, &out, passings, 32, &told, &fault);
            consumed += out;
            all += told;
        } while (code == -20);
        sprintf(rest, " %u %llu", (unsigned)consumed, (unsigned long long)all);
        return code;
    }
    if (!strcmp(call, "code")) {
        code = kistalub_name_to_code(h, (const unsigned char *)a, strlen(a), &out);
        if (code == 0) sprintf(rest, " 0x%x", (unsigned)out);
        return code;
    }
    if (!strcmp(call, "name")) return named(h, (uint32_t)strtoul(a, NULL, 16), rest);
    fprintf(stderr, "no such call: %s\n", call);
    exit(2);
}

int main(int argc, char **argv) {
    if (argc < 5) return 2;
    text unit = file(argv[1]), presets = file(argv[2]);
    FILE *script = fopen(argv[4], "r");
    char line[1024];
    if (!script) return 2;
    for (unsigned t = 0; t < 64; t++) {
        text stream = file((int)t + 5 < argc ? argv[t + 5] : "");
        int code = kistalub_open(&threads[t], unit.bytes, unit.length, presets.bytes,
                                 presets.length, (unsigned char *)argv[3], strlen(argv[3]), t,
                                 stream.bytes, stream.length);
        free(stream.bytes);
        if (code) { fprintf(stderr, "open: %s\n", code_name(code)); return 2; }
    }
    for (unsigned number = 1; fgets(line, sizeof line, script); number++) {
        char word[4][256] = { "", "", "", "" }, call[64] = "", rest[8192] = "";
        if (sscanf(line, "%255s %63s %255s %255s %255s", word[0], call, word[1], word[2], word[3]) <
                2 ||
            word[0][0] == '#')
            continue;
        unsigned long thread = strtoul(word[0], NULL, 10) & 63;
        int code = make(thread, call, word[1], word[2], word[3], rest);
        printf("%u %lu %s %s%s\n", number, thread, call, code_name(code), rest);
    }
    for (unsigned t = 0; t < 64; t++) kistalub_close(&threads[t]);
    free(unit.bytes);
    free(presets.bytes);
    fclose(script);
    return 0;
}
