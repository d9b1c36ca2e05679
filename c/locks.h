/* The locks of all sources. One is taken under another only in the order in which they stand here.
 * Around a fork all are held, so that the child finds what they guard whole. No function of the
 * user is called under one of them, and no thread is cancelled under one. */
#ifndef KL_LOCKS_H
#define KL_LOCKS_H

#include <pthread.h>

/* The regions of the high level, and the trial that chooses their events. */
extern pthread_mutex_t kl_region_lock;
/* The library begins or ends; files are read meanwhile. */
extern pthread_mutex_t kl_beginning;
/* The libraries of threads that have ended. */
extern pthread_mutex_t kl_ended_lock;
extern pthread_mutex_t kl_component_lock;
extern pthread_mutex_t kl_machine_lock;
/* The events that were judged. */
extern pthread_mutex_t kl_asked_lock;
/* The bytes of the streams. */
extern pthread_mutex_t kl_stream_lock;
/* What events count in a program that runs under the tool. */
extern pthread_mutex_t kl_kinds_lock;
/* The list of threads, their ids, the numbers of sets, the codes of events, and the files of the
 * process. */
extern pthread_mutex_t kl_lock;
/* The memory of the proved library, in a program that runs under the tool. */
extern pthread_mutex_t kl_heap_lock;

/* Makes a fork take all of these and the program's own: PAPI_ENOMEM if it can't. */
int kl_guard_forks(void (*child)(void));

/* The calling thread is not cancelled from here to the end of the block: it may hold a lock, or be
 * waiting for one. */
#define NO_CANCELLATION \
    int cancelled_ __attribute__((cleanup(kl_cancel_again), unused)) = kl_no_cancellation()
int kl_no_cancellation(void);
void kl_cancel_again(const int *unused);

#endif
