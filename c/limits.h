/* Limits of the proved crates. tools/make_limits writes this file. */
#ifndef KL_LIMITS_H
#define KL_LIMITS_H

/* How many event sets a thread has at most: their numbers are below this. */
#define MOST_SETS 64

/* How many events a set has at most. */
#define MOST_SET_EVENTS 32

/* How many components a unit has at most. */
#define MOST_COMPONENTS 16

/* How many ticks a slice of a multiplexed set has at most: PAPI_set_multiplex(3). */
#define LONGEST_SLICE 1000000

/* The greatest amount of an occurrence. */
#define LARGEST_AMOUNT 255

/* How many bytes a unit file or a preset file has at most. */
#define TABLE_BYTES 1048576

/* The most bytes of a stream. */
#define LARGEST_STREAM 67108864

#endif
