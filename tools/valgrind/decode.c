#include "decode.h"

/* What stands before the opcode. `form` is that of vectors: packed singles, packed doubles, a
 * single, a double. */
typedef struct {
    bool has_lock, repeats, is_vex, is_wide, is_double; /* is_wide: of 256 bits; is_double: VEX.W */
    bool is_short;                                      /* an address of 32 bits */
    unsigned char rex, segment;
    enum { PACKED_SINGLES, PACKED_DOUBLES, ONE_SINGLE, ONE_DOUBLE } form;
} prefixes;

static unsigned char packed(const prefixes *p, bool of_doubles) {
    if (p->is_wide) return of_doubles ? DOUBLE_256 : SINGLE_256;
    return of_doubles ? DOUBLE_128 : SINGLE_128;
}

static unsigned char by_form(const prefixes *p) {
    switch (p->form) {
    case ONE_SINGLE: return SCALAR_SINGLE;
    case ONE_DOUBLE: return SCALAR_DOUBLE;
    default: return packed(p, p->form == PACKED_DOUBLES);
    }
}

/* Opcodes after 0F. */
static unsigned char class_of_0f(const prefixes *p, unsigned char opcode) {
    switch (opcode) {
    /* sqrt, add, mul, sub, min, div, max */
    case 0x51: case 0x58: case 0x59: case 0x5C: case 0x5D: case 0x5E: case 0x5F: return by_form(p);
    case 0x52: case 0x53:
        return p->form == PACKED_SINGLES || p->form == ONE_SINGLE ? by_form(p)
                                                                  : PLAIN; /* rsqrt, rcp */
    case 0x7C: case 0x7D: case 0xD0: /* hadd, hsub, addsub */
        return p->form == PACKED_DOUBLES ? packed(p, true)
               : p->form == ONE_DOUBLE   ? packed(p, false)
                                         : PLAIN;
    default: return PLAIN;
    }
}

/* Opcodes after 0F 38: the fused ones, which are 96 to 9F, A6 to AF and B6 to BF. The odd ones from
 * 9 on are scalar. */
static unsigned char class_of_0f38(const prefixes *p, unsigned char opcode) {
    unsigned low = opcode & 15, high = opcode >> 4;
    if (!p->is_vex || p->form != PACKED_DOUBLES || high < 9 || high > 0xB || low < 6) return PLAIN;
    bool is_scalar = low >= 9 && low & 1;
    unsigned char class =
        is_scalar ? p->is_double ? SCALAR_DOUBLE : SCALAR_SINGLE : packed(p, p->is_double);
    return class | TWICE;
}

/* Opcodes after 0F 3A: dpps and dppd. */
static unsigned char class_of_0f3a(const prefixes *p, unsigned char opcode) {
    if (p->form != PACKED_DOUBLES || (opcode != 0x40 && opcode != 0x41)) return PLAIN;
    return packed(p, opcode == 0x41) | TWICE;
}

static unsigned char class_of_x87(unsigned char opcode, unsigned char modrm) {
    unsigned digit = modrm >> 3 & 7;
    bool is_register = modrm >= 0xC0, computes = digit != 2 && digit != 3; /* those two compare */
    switch (opcode) {
    case 0xD8: case 0xDC: case 0xDE: return computes ? X87 : PLAIN;
    case 0xDA: return !is_register && computes ? X87 : PLAIN;
    case 0xD9:
        switch (modrm) {
        case 0xF0: case 0xF1: case 0xF2: case 0xF3: case 0xF5: case 0xF8: case 0xF9: case 0xFA:
        case 0xFB: case 0xFE: case 0xFF: return X87;
        default: return PLAIN;
        }
    default: return PLAIN;
    }
}

static bool is_on_strings(unsigned char opcode) {
    return (opcode >= 0xA4 && opcode <= 0xA7) || (opcode >= 0xAA && opcode <= 0xAF) ||
           (opcode >= 0x6C && opcode <= 0x6F);
}

static unsigned char class_of_group(unsigned char modrm) {
    unsigned digit = modrm >> 3 & 7;
    return digit == 2 || digit == 3 ? CALL : digit == 4 || digit == 5 ? JUMP : PLAIN;
}

/* Opcodes of one byte, with the byte behind. */
static unsigned char class_of_one(const prefixes *p, unsigned char opcode, unsigned char modrm) {
    if ((opcode >= 0x70 && opcode <= 0x7F) || (opcode >= 0xE0 && opcode <= 0xE3))
        return CONDITIONAL;
    if (opcode >= 0xD8 && opcode <= 0xDF) return class_of_x87(opcode, modrm);
    if (p->repeats && is_on_strings(opcode)) return REPEATS;
    switch (opcode) {
    case 0xE8: return CALL;
    case 0xE9: case 0xEB: return JUMP;
    case 0xC2: case 0xC3: case 0xCA: case 0xCB: case 0xCF: return RETURN;
    case 0xFF: return class_of_group(modrm);
    /* xchg with memory locks by itself */
    case 0x86: case 0x87: return modrm < 0xC0 ? LOCKS : PLAIN;
    default: return PLAIN;
    }
}

static unsigned char class_of_vex(const unsigned char *at, const unsigned char *end) {
    bool is_short = *at == 0xC5;
    if (at + (is_short ? 2 : 3) >= end) return PLAIN;
    unsigned char last = is_short ? at[1] : at[2], opcode = is_short ? at[2] : at[3];
    static const unsigned char forms[4] = {PACKED_SINGLES, PACKED_DOUBLES, ONE_SINGLE, ONE_DOUBLE};
    const prefixes p = {.is_vex = true,
                        .is_wide = last >> 2 & 1,
                        .is_double = !is_short && last >> 7,
                        .form = forms[last & 3]};
    switch (is_short ? 1 : at[1] & 31) {
    case 1: return class_of_0f(&p, opcode);
    case 2: return class_of_0f38(&p, opcode);
    case 3: return class_of_0f3a(&p, opcode);
    default: return PLAIN;
    }
}

static const unsigned char *read_prefixes(prefixes *p, const unsigned char *at,
                                          const unsigned char *end) {
    bool has_66 = false, has_f2 = false, has_f3 = false;
    for (; at < end; at++) {
        switch (*at) {
        case 0x66: has_66 = true; continue;
        case 0xF2: has_f2 = true; continue;
        case 0xF3: has_f3 = true; continue;
        case 0xF0: p->has_lock = true; continue;
        case 0x67: p->is_short = true; continue;
        case 0x64: p->segment = SEGMENT_FS; continue;
        case 0x65: p->segment = SEGMENT_GS; continue;
        case 0x2E: case 0x36: case 0x3E: case 0x26: continue;
        default: break;
        }
        break;
    }
    if (at < end && (*at & 0xF0) == 0x40) p->rex = *at++;
    p->repeats = has_f2 || has_f3;
    p->form = has_f2 ? ONE_DOUBLE : has_f3 ? ONE_SINGLE : has_66 ? PACKED_DOUBLES : PACKED_SINGLES;
    return at;
}

unsigned char class_of_bytes(const unsigned char *bytes, unsigned length) {
    const unsigned char *end = bytes + length;
    prefixes p = {0};
    const unsigned char *at = read_prefixes(&p, bytes, end);
    if (at >= end) return PLAIN;
    if (*at == 0xC4 || *at == 0xC5) return class_of_vex(at, end);
    unsigned char behind = at + 1 < end ? at[1] : 0;
    if (*at != 0x0F) return class_of_one(&p, *at, behind) | (p.has_lock ? LOCKS : 0);
    if (behind >= 0x80 && behind <= 0x8F) return CONDITIONAL;
    if (behind == 0x38) return PLAIN;
    if (behind == 0x3A) return at + 2 < end ? class_of_0f3a(&p, at[2]) : PLAIN;
    /* cmpxchg needs no trying again */
    bool compares = behind == 0xB0 || behind == 0xB1 || behind == 0xC7;
    return class_of_0f(&p, behind) | (p.has_lock && !compares ? LOCKS : 0);
}

static operation operation_of_0f(unsigned char opcode) {
    switch (opcode) {
    /* add, sub, hadd, hsub, addsub */
    case 0x58: case 0x5C: case 0x7C: case 0x7D: case 0xD0: return ADDS;
    case 0x59: return MULTIPLIES;
    case 0x51: case 0x5E: return DIVIDES; /* sqrt, div */
    default: return DOES_OTHER;
    }
}

operation operation_of_bytes(const unsigned char *bytes, unsigned length) {
    const unsigned char *end = bytes + length;
    prefixes p = {0};
    const unsigned char *at = read_prefixes(&p, bytes, end);
    if (at + 1 >= end) return DOES_OTHER;
    if (*at == 0x0F) return operation_of_0f(at[1]);
    bool is_short = *at == 0xC5;
    if ((!is_short && *at != 0xC4) || at + (is_short ? 2 : 3) >= end) return DOES_OTHER;
    unsigned map = is_short ? 1 : at[1] & 31;
    return map == 1 ? operation_of_0f(at[is_short ? 2 : 3]) : map == 2 ? FUSES : DOES_OTHER;
}

bool locks_memory(const unsigned char *bytes, unsigned length) {
    prefixes p = {0};
    const unsigned char *end = bytes + length, *at = read_prefixes(&p, bytes, end);
    return p.has_lock || (at + 1 < end && (*at == 0x86 || *at == 0x87) && at[1] < 0xC0);
}

/* -- operands in memory -- */

static operands operands_of_vex(const unsigned char *at, const unsigned char *end) {
    bool is_short = *at == 0xC5;
    if (at + (is_short ? 2 : 3) >= end) return OPERANDS_WHOLE;
    unsigned char map = is_short ? 1 : at[1] & 31, opcode = is_short ? at[2] : at[3];
    if (map == 1) return opcode == 0xF7 ? OPERANDS_STORED : OPERANDS_WHOLE; /* maskmovdqu */
    if (map != 2) return OPERANDS_WHOLE;
    if ((opcode >= 0x2C && opcode <= 0x2F) || opcode == 0x8C || opcode == 0x8E)
        return OPERANDS_MASKED;
    return opcode >= 0x90 && opcode <= 0x93 ? OPERANDS_GATHERED : OPERANDS_WHOLE;
}

/* Opcodes after 0F, with the byte behind. */
static operands operands_of_0f(unsigned char opcode, unsigned char modrm) {
    unsigned digit = modrm >> 3 & 7;
    bool is_register = modrm >= 0xC0;
    switch (opcode) {
    case 0x0D: return !is_register && digit <= 2 ? OPERANDS_PREFETCHED : OPERANDS_WHOLE;
    case 0x18: return !is_register && digit <= 3 ? OPERANDS_PREFETCHED : OPERANDS_WHOLE;
    /* bt, bts, btr, btc */
    case 0xA3: case 0xAB: case 0xB3: case 0xBB: return is_register ? OPERANDS_NONE : OPERANDS_WHOLE;
    /* fxsave, fxrstor */
    case 0xAE: return !is_register && digit <= 1 ? OPERANDS_OF_512 : OPERANDS_WHOLE;
    case 0xF7: return OPERANDS_STORED; /* maskmovq, maskmovdqu */
    default: return OPERANDS_WHOLE;
    }
}

operands operands_of_bytes(const unsigned char *bytes, unsigned length) {
    const unsigned char *end = bytes + length;
    prefixes p = {0};
    const unsigned char *at = read_prefixes(&p, bytes, end);
    if (at >= end) return OPERANDS_WHOLE;
    if (*at == 0xC4 || *at == 0xC5) return operands_of_vex(at, end);
    if (*at == 0xA6 || *at == 0xA7) return OPERANDS_EACH; /* cmps, whose two may be at one place */
    return *at == 0x0F && at + 2 < end ? operands_of_0f(at[1], at[2]) : OPERANDS_WHOLE;
}

static long signed_of(const unsigned char *at, unsigned bytes) {
    unsigned long value = 0;
    for (unsigned i = 0; i < bytes; i++) value |= (unsigned long)at[i] << 8 * i;
    return bytes == 1 ? (signed char)value : (int)value;
}

operand_address address_of_bytes(const unsigned char *bytes, unsigned length) {
    prefixes p = {0};
    const unsigned char *at = read_prefixes(&p, bytes, bytes + length) + 2;
    unsigned char modrm = *at++;
    unsigned mode = modrm >> 6, low = modrm & 7;
    operand_address a = {
        .base = (int)(low | (p.rex & 1u) << 3), .index = NO_REGISTER, .is_short = p.is_short};
    a.segment = p.segment;
    if (low == 4) {
        unsigned char sib = *at++;
        int index = (sib >> 3 & 7) | (p.rex & 2) << 2;
        low = sib & 7;
        a.base = (int)(low | (p.rex & 1u) << 3);
        a.index = index == 4 ? NO_REGISTER : index;
        a.scale = sib >> 6;
    } else a.is_of_next = mode == 0 && low == 5;
    bool has_none = mode == 0 && low == 5;
    if (has_none) a.base = NO_REGISTER;
    a.displacement = mode == 1 ? signed_of(at, 1) : mode == 2 || has_none ? signed_of(at, 4) : 0;
    return a;
}

/* -- instructions that can't be run -- */

bool is_undefined_by_intent(const unsigned char *bytes) {
    return bytes[0] == 0x0F && (bytes[1] == 0x0B || bytes[1] == 0xB9 || bytes[1] == 0xFF);
}

/* EVEX, and VEX of the instructions of mask registers. */
bool is_of_avx512(const unsigned char *bytes) {
    if (bytes[0] == 0x62) return true;
    if (bytes[0] != 0xC4 && bytes[0] != 0xC5) return false;
    bool is_short = bytes[0] == 0xC5;
    unsigned char map = is_short ? 1 : bytes[1] & 31, opcode = is_short ? bytes[2] : bytes[3];
    if (map == 1)
        return (opcode >= 0x41 && opcode <= 0x4B) || (opcode >= 0x90 && opcode <= 0x93) ||
               opcode == 0x98 || opcode == 0x99;
    return map == 3 && opcode >= 0x30 && opcode <= 0x33;
}
