/* versions.c: what the header of a later version, which a program was compiled by, has
 * elsewhere. */
#ifndef KL_VERSIONS_H
#define KL_VERSIONS_H

#include "papi.h"

void kl_takes_version(int version);
/* A modifier of an enumeration as our header has it. */
int kl_modifier(int modifier);
/* Under kl_component_lock. */
const PAPI_component_info_t *kl_told_component(const PAPI_component_info_t *info);
/* What stands behind the members that ours has. */
void kl_ends_event_info(PAPI_event_info_t *info);

#endif
