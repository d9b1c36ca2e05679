/* Thresholds: what is done when an event passes one. */
#ifndef KL_WATCHES_H
#define KL_WATCHES_H

#include "papi.h"
#include "thread.h"

#include <stdint.h>

typedef struct {
    int handled;                   /* the set's handler is called */
    int profiled;                  /* a region of a profile counts the address */
    const PAPI_sprofil_t *regions; /* PAPI_sprofil's, or NULL: PAPI_profil's is `own` */
    int region_count;
    int flags; /* PAPI_PROFIL_* */
    uint32_t threshold;
    PAPI_sprofil_t own;
} kl_watch;

/* overflow.c */
int kl_find_watch(thread_state *t, int set, int event, uint32_t *own, kl_watch **found);
int kl_set_threshold(thread_state *t, int set, uint32_t event, int threshold, kl_watch *w);
void kl_note_watches(thread_state *t, kl_set *s);
int kl_has_handler(const kl_set *s);
int kl_has_profile(const kl_set *s);
void kl_forget_set(thread_state *t, kl_set *s);
void kl_tell(thread_state *t, const kistalub_passing *passings, uint64_t told);

/* profile.c */
void kl_hit(thread_state *t, kl_watch *w, unsigned long long address);

#endif
