/* presets.c: what PAPI says of each of its presets. */
#ifndef KL_PRESETS_H
#define KL_PRESETS_H

#include <stdbool.h>

typedef struct { const char *name, *description, *long_description; unsigned kinds; } kl_preset;
/* The preset of a code, or NULL. */
const kl_preset *kl_preset_of(int code);
bool kl_is_modelled(const kl_preset *preset);
int kl_preset_named(const char *name, int *code);
const char *kl_spelled(const char *name);

#endif
