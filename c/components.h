/* components.c: the components that events belong to. */
#ifndef KL_COMPONENTS_H
#define KL_COMPONENTS_H

#include "thread.h"

#include <stddef.h>
#include <stdint.h>

int kl_component_text(thread_state *t, int component, uint32_t part, uint32_t place, char *text,
                      size_t room);
int kl_is_disabled(thread_state *t, int component);
int kl_check_enabled(thread_state *t, uint32_t own);
int kl_check_known(thread_state *t, const char *name);
void kl_components_end(void);

#endif
