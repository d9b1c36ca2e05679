/* What an instruction of x86-64 is, by its bytes. */
#ifndef DECODE_H
#define DECODE_H

#include <stdbool.h>

/* A class is one of these in the low four bits. Floating-point arithmetic has its width there, and
 * above it whether it counts twice. */
enum {
    PLAIN, /* no branch and no arithmetic */
    CONDITIONAL,
    JUMP,
    CALL,
    RETURN,
    SCALAR_DOUBLE,
    SCALAR_SINGLE,
    DOUBLE_128,
    SINGLE_128,
    DOUBLE_256,
    SINGLE_256,
    DOUBLE_512,
    SINGLE_512,
    X87
};
#define CLASS_BITS 0x0f
#define TWICE 0x10
#define REPEATS 0x20 /* an instruction on strings that goes on by itself */
/* Changes memory in one piece: Valgrind tries that until nothing came between. */
#define LOCKS 0x40

/* The class of the instruction in these bytes. */
unsigned char class_of_bytes(const unsigned char *bytes, unsigned length);

/* What an instruction of floating-point arithmetic does with each element of its width. */
/* DIVIDES: roots too; DOES_OTHER: such as max, or several of these */
typedef enum { ADDS, MULTIPLIES, DIVIDES, FUSES, DOES_OTHER } operation;
operation operation_of_bytes(const unsigned char *bytes, unsigned length);

/* Whether the instruction locks memory: by its prefix, or as an exchange with memory does by
 * itself. */
bool locks_memory(const unsigned char *bytes, unsigned length);

/* What an instruction's accesses are, beside Valgrind's own code for it. */
typedef enum {
    OPERANDS_WHOLE,      /* what it has at one place is one operand, however many parts are taken */
    OPERANDS_EACH,       /* each part is an operand */
    OPERANDS_NONE,       /* it has none: Valgrind's own code goes over memory */
    OPERANDS_STORED,     /* it stores alone: Valgrind's code reads what it leaves as it is */
    OPERANDS_MASKED,     /* parts of one operand that a mask chooses */
    OPERANDS_GATHERED,   /* operands that a mask chooses */
    OPERANDS_PREFETCHED, /* a line that is brought: Valgrind's code leaves it out */
    OPERANDS_OF_512      /* one operand of 512 bytes */
} operands;
operands operands_of_bytes(const unsigned char *bytes, unsigned length);

/* An address as an instruction has it: a base, an index times a power of two, a displacement. */
#define NO_REGISTER (-1)
typedef struct {
    int base, index; /* numbers of registers */
    unsigned scale;  /* the power */
    long displacement;
    enum { NO_SEGMENT, SEGMENT_FS, SEGMENT_GS } segment;
    bool is_of_next; /* it counts from the next instruction */
    bool is_short;   /* 32 bits */
} operand_address;
/* Of an instruction with two bytes of opcode, the second of which is followed by the address. */
operand_address address_of_bytes(const unsigned char *bytes, unsigned length);

/* Whether an instruction is there to fault (ud2 and its like), and whether it is one of AVX-512. */
bool is_undefined_by_intent(const unsigned char *bytes);
bool is_of_avx512(const unsigned char *bytes);

#endif
