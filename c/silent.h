/* silent.c: events that count nothing. */
#ifndef KL_SILENT_H
#define KL_SILENT_H

#include "events.h"
#include "files.h"
#include "thread.h"

#include <stdint.h>

/* Occurrences of each kind of line that a stream has, if there are not too many; they are kept by
 * the thread. */
int kl_tells_silence(void);
int kl_take_heads(const text *stream, kl_heads *heads);
void kl_drop_heads(kl_heads *heads);
/* The events of a set that is to be started are judged over them: those that no line counts for
 * are told once. */
int kl_judge_events(thread_state *t, uint32_t set);
void kl_forget_asked(kl_files *files);
/* The name of a native event of an event, by its place from 0. */
int kl_native_name(thread_state *t, uint32_t code, uint32_t place, char name[NAME_ROOM]);

#endif
