/* The functions whose calls are followed: those that words name, or all for a profile. */
#ifndef FUNCTIONS_H
#define FUNCTIONS_H
#include "pub_tool_basics.h"

#include "kinds.h"

typedef struct function {
    Addr entry;
    Bool is_named;
    UInt name; /* the number of the word that names it */
    struct function *next;

    /* For a profile: */
    Bool is_profiled;
    UInt number;
    Addr bias; /* where its object was loaded, as its file counts addresses */
    const HChar *object, *symbol, *file; /* NULL if it has none */
    UInt line;
    ULong calls, inclusive[ALL_KINDS];
} function;

/* A word names a function: by the name of its symbol, by that in its language, with or without its
 * arguments, or by its address in the file, 0x.. */
void functions_take(const HChar *name);
Bool functions_are_named(void);
Bool functions_are_followed(void);

/* The program is in memory. */
void functions_begin(Addr entry);

/* The followed function that begins at an address, or NULL. */
function *function_at(Addr pc);

/* The function that code is a part of: that of its symbol, or else of the nearest call's target
 * before it in its object. */
function *function_of(Addr pc);

/* The function at the target of a call if it has no symbol, else NULL: then code at its beginning
 * tells that it is entered. */
function *function_called(Addr pc);

/* The file of an instruction's source, NULL if it is not known, and the line. The name is kept. */
const HChar *source_of(Addr pc, UInt *number);

/* The innermost function that is inlined where an instruction is, by the name that DWARF gives it
 * (DW_TAG_inlined_subroutine), or NULL. The name is kept. */
const HChar *inlined_at(Addr pc);

void functions_each(void (*f)(function *of));
void function_forgets(function *f);

/* How often the functions of each word were called. */
void functions_count_call(const function *f);
void functions_forget_calls(void);
UInt functions_names(void);
ULong functions_calls(UInt name);

#endif
