/* What the sources of the high level share: the events that regions count, and the regions of each
 * thread. */
#ifndef KL_REGIONS_H
#define KL_REGIONS_H

#include "limits.h"
#include "papi.h"
#include "sets.h"

#include <stdint.h>

/* As many as a set of each component can have. */
#define MOST_GROUPS MOST_COMPONENTS
#define MOST_REGION_EVENTS (MOST_GROUPS * MOST_EVENTS)
#define MOST_NESTED 10

/* What stands before the events in the values of a region: cycles and nanoseconds. */
#define FIXED_VALUES 2
#define MOST_VALUES (FIXED_VALUES + MOST_REGION_EVENTS)

/* An event, the group to which it belongs, and whether its value at the end counts rather than the
 * difference. */
typedef struct { char name[PAPI_MAX_STR_LEN]; int group, is_instant; } region_event;

/* The events of a component, which stand one after the other, and while they are chosen a set that
 * has them. */
typedef struct { int component, count, trial; char name[PAPI_MAX_STR_LEN]; } event_group;

/* What all regions count, the processor, and the folder of the output. */
typedef struct {
    region_event events[MOST_REGION_EVENTS];
    event_group groups[MOST_GROUPS];
    int event_count, group_count;
    char cpu[PAPI_MAX_STR_LEN];
    int mhz;
    char *folder;
} counted_events;

/* A region. In one piece behind it are the values where it began and those that it counted up to
 * its end, and then its name. Each PAPI_hl_read in between has as many values in `reads`. */
typedef struct region {
    struct region *next;
    int id, parent;
    int read_count, read_room;
    long long *reads;
    long long values[];
} region;

/* The regions of a thread in the order in which they began, those that have not ended, and the sets
 * that count. */
typedef struct region_thread {
    struct region_thread *next;
    uint32_t number;
    int has_ended; /* the thread itself */
    region *first, *last;
    int begun, ended;
    int depth;
    region *open[MOST_NESTED];
    unsigned generation; /* of the library that has the sets */
    int set_count, runs;
    int sets[MOST_GROUPS];
} region_thread;

static inline int kl_value_count(const counted_events *counted) {
    return FIXED_VALUES + counted->event_count;
}
static inline const long long *kl_counted_in(const counted_events *counted, const region *r) {
    return r->values + kl_value_count(counted);
}
static inline const char *kl_region_name(const counted_events *counted, const region *r) {
    return (const char *)(r->values + 2 * kl_value_count(counted));
}

/* A line on standard output, if PAPI_HL_VERBOSE is set. */
void kl_region_say(const char *what, const char *name);

/* region_events.c: decides what all regions count. A set of the given component is multiplexed, if
 * the environment says so. */
int kl_choose_region_events(counted_events *counted);
int kl_make_region_set(int component, int *set);

/* region_output.c: the folder for what is counted, as it is when the first region begins; and at
 * the end of the process the file. */
int kl_find_region_folder(counted_events *counted);
void kl_write_regions(const counted_events *counted, const region_thread *threads);

#endif
