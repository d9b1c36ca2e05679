/* Events: their names, and where they stand in a unit. */
#ifndef KL_EVENTS_H
#define KL_EVENTS_H

#include "thread.h"

#include <stdint.h>
#include <string.h>

#define NAME_ROOM 1024

/* events.c. So many bytes of a name are looked at: no event has a longer one, and one that the
 * program hands over may have no end. */
#define LOOKED_AT 2048
static inline size_t kl_name_length(const char *name) { return strnlen(name, LOOKED_AT); }
int kl_ended(int code, char *text, uint64_t room, uint64_t length);
int kl_name_in(thread_state *t, int event, char *name);

/* enumeration.c. A row is a code of a native event that has umasks, without any of them. */
typedef struct { uint32_t component, row; } native_place;
int kl_is_row(int event);
int kl_code_in_library(thread_state *t, int event, uint32_t *code);
int kl_place_of(thread_state *t, int event, native_place *at);
int kl_native_text(thread_state *t, native_place at, uint32_t part, uint32_t mask, char *text,
                   size_t room);

#endif
