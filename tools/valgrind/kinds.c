#include "kinds.h"

#define ONE(select, umask) {1, {{select, umask}}}

const all_codes recorded_codes = {
    [KL_INSTRUCTIONS] = ONE(0xc0, 0x00), [KL_CYCLES] = ONE(0x3c, 0x00),
    [KL_STALLS] = ONE(0xa2, 0x01), [KL_LOADS] = ONE(0xd0, 0x01), [KL_STORES] = ONE(0xd0, 0x02),
    [KL_L1D_LOAD_MISSES] = ONE(0x51, 0x03), [KL_L1D_STORE_MISSES] = ONE(0x51, 0x05),
    [KL_L1I_MISSES] = ONE(0x83, 0x02),
    [KL_L2_LOAD_HITS] = ONE(0x25, 0x01), [KL_L2_STORE_HITS] = ONE(0x25, 0x02),
    [KL_L2_FETCH_HITS] = ONE(0x25, 0x04),
    [KL_L2_LOAD_MISSES] = ONE(0x25, 0x09), [KL_L2_STORE_MISSES] = ONE(0x25, 0x12),
    [KL_L2_FETCH_MISSES] = ONE(0x25, 0x24),
    [KL_L3_LOAD_HITS] = ONE(0x2f, 0x01), [KL_L3_STORE_HITS] = ONE(0x2f, 0x02),
    [KL_L3_FETCH_HITS] = ONE(0x2f, 0x04),
    [KL_L3_LOAD_MISSES] = ONE(0x2f, 0x09), [KL_L3_STORE_MISSES] = ONE(0x2f, 0x12),
    [KL_L3_FETCH_MISSES] = ONE(0x2f, 0x24),
    [KL_DTLB_LOAD_MISSES] = ONE(0x08, 0x01), [KL_DTLB_STORE_MISSES] = ONE(0x49, 0x01),
    [KL_ITLB_MISSES] = ONE(0x85, 0x01),
    [KL_TAKEN] = ONE(0xc4, 0xa5), [KL_NOT_TAKEN] = ONE(0xc4, 0x15), [KL_JUMPS] = ONE(0xc4, 0x24),
    [KL_CALLS] = ONE(0xc4, 0x26), [KL_RETURNS] = ONE(0xc4, 0x2c),
    [KL_MISPREDICTED_TAKEN] = ONE(0xc5, 0x25), [KL_MISPREDICTED_NOT_TAKEN] = ONE(0xc5, 0x05),
    [KL_SCALAR_DOUBLES] = ONE(0xc7, 0x01), [KL_SCALAR_SINGLES] = ONE(0xc7, 0x02),
    [KL_DOUBLES_128] = ONE(0xc7, 0x04), [KL_SINGLES_128] = ONE(0xc7, 0x08),
    [KL_DOUBLES_256] = ONE(0xc7, 0x10), [KL_SINGLES_256] = ONE(0xc7, 0x20),
    [KL_DOUBLES_512] = ONE(0xc7, 0x40), [KL_SINGLES_512] = ONE(0xc7, 0x80),
    [KL_X87S] = ONE(0x10, 0x01),
};

const char *const kind_names[ALL_KINDS] = {
    [KL_INSTRUCTIONS] = "instructions", [KL_CYCLES] = "cycles", [KL_STALLS] = "stalls",
    [KL_LOADS] = "loads", [KL_STORES] = "stores",
    [KL_L1D_LOAD_MISSES] = "l1d_load_misses", [KL_L1D_STORE_MISSES] = "l1d_store_misses",
    [KL_L1I_MISSES] = "l1i_misses",
    [KL_L2_LOAD_HITS] = "l2_load_hits", [KL_L2_STORE_HITS] = "l2_store_hits",
    [KL_L2_FETCH_HITS] = "l2_fetch_hits",
    [KL_L2_LOAD_MISSES] = "l2_load_misses", [KL_L2_STORE_MISSES] = "l2_store_misses",
    [KL_L2_FETCH_MISSES] = "l2_fetch_misses",
    [KL_L3_LOAD_HITS] = "l3_load_hits", [KL_L3_STORE_HITS] = "l3_store_hits",
    [KL_L3_FETCH_HITS] = "l3_fetch_hits",
    [KL_L3_LOAD_MISSES] = "l3_load_misses", [KL_L3_STORE_MISSES] = "l3_store_misses",
    [KL_L3_FETCH_MISSES] = "l3_fetch_misses",
    [KL_DTLB_LOAD_MISSES] = "dtlb_load_misses", [KL_DTLB_STORE_MISSES] = "dtlb_store_misses",
    [KL_ITLB_MISSES] = "itlb_misses",
    [KL_TAKEN] = "conditional_taken", [KL_NOT_TAKEN] = "conditional_not_taken",
    [KL_JUMPS] = "jumps", [KL_CALLS] = "calls", [KL_RETURNS] = "returns",
    [KL_MISPREDICTED_TAKEN] = "mispredicted_taken",
    [KL_MISPREDICTED_NOT_TAKEN] = "mispredicted_not_taken",
    [KL_SCALAR_DOUBLES] = "scalar_double", [KL_SCALAR_SINGLES] = "scalar_single",
    [KL_DOUBLES_128] = "double_128", [KL_SINGLES_128] = "single_128",
    [KL_DOUBLES_256] = "double_256", [KL_SINGLES_256] = "single_256",
    [KL_DOUBLES_512] = "double_512", [KL_SINGLES_512] = "single_512", [KL_X87S] = "x87",
    [KL_LOCKED_LOADS] = "locked_loads", [KL_SPLIT_LOADS] = "split_loads",
    [KL_SPLIT_STORES] = "split_stores",
    [KL_ADDED_DOUBLES] = "added_doubles", [KL_MULTIPLIED_DOUBLES] = "multiplied_doubles",
    [KL_DIVIDED_DOUBLES] = "divided_doubles", [KL_FUSED_DOUBLES] = "fused_doubles",
    [KL_ADDED_SINGLES] = "added_singles", [KL_MULTIPLIED_SINGLES] = "multiplied_singles",
    [KL_DIVIDED_SINGLES] = "divided_singles", [KL_FUSED_SINGLES] = "fused_singles",
    [LOAD_HITS] = "load_hits", [LOCKED] = "locked", [REPEATED] = "repeated", [TURNS] = "turns",
    [MODIFIES] = "modifies",
};

/* -- codes as text -- */

#define CODE_LENGTH 4

static int digit_of(char letter) {
    if (letter >= '0' && letter <= '9') return letter - '0';
    return letter >= 'a' && letter <= 'f' ? letter - 'a' + 10 : -1;
}

/* The code whose digits the text begins with. Gives whether there are so many. */
static int is_code(const char *text, event_code *found) {
    unsigned number = 0;
    for (int i = 0; i < CODE_LENGTH; i++) {
        int digit = digit_of(text[i]);
        if (digit < 0) return 0;
        number = number << 4 | (unsigned)digit;
    }
    found->select = (unsigned char)(number >> 8);
    found->umask = (unsigned char)number;
    return 1;
}

/* The kind whose name the text begins with before a colon, and how long that is; LINE_KINDS if
 * there is none. */
static int kind_at(const char *text, unsigned *length) {
    for (int kind = 0; kind < LINE_KINDS; kind++) {
        const char *name = kind_names[kind];
        unsigned i = 0;
        while (name && name[i] && name[i] == text[i]) i++;
        *length = i + 1;
        if (name && !name[i] && text[i] == ':') return kind;
    }
    return LINE_KINDS;
}

/* The codes of a kind, up to the end or a comma. Gives where that is, or NULL if they are not
 * right. */
static const char *read_kind(const char *text, kind_codes *to) {
    for (;;) {
        if (to->count == MOST_CODES || !is_code(text, &to->of[to->count])) return 0;
        to->count++;
        text += CODE_LENGTH;
        if (*text != '+') return *text == 0 || *text == ',' ? text : 0;
        text++;
    }
}

int read_codes(const char *text, all_codes to) {
    for (int kind = 0; kind < LINE_KINDS; kind++) to[kind].count = 0;
    while (*text) {
        unsigned length;
        int kind = kind_at(text, &length);
        if (kind == LINE_KINDS || to[kind].count) return 0;
        text = read_kind(text + length, &to[kind]);
        if (!text) return 0;
        text += *text == ',';
    }
    return 1;
}
