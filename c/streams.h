/* streams.c: the streams, of which each thread reads one. */
#ifndef KL_STREAMS_H
#define KL_STREAMS_H

#include "files.h"
#include "papi.h"

#include <stdint.h>

/* A file whose bytes lie in memory once for all threads that read it. */
typedef struct kl_stream kl_stream;

char *kl_stream_path(const char *streams, uint32_t number, int *is_threads);
/* The bytes of a thread's stream stay until they are given back. */
int kl_take_stream(kl_files *files, uint32_t number, kl_stream **stream, text *bytes);
void kl_give_stream(kl_stream *stream);
void kl_drop_stream(kl_stream *stream);
/* Says where the stream of a thread is faulty, in the words of papi_run. */
void kl_say_fault(uint32_t number, const kistalub_fault *fault);
/* Judges the stream of the first thread. */
int kl_judge_stream(kl_files *files);

#endif
