/* The memory of the proved library. In a program that runs under the tool it is no part of the C
 * library's heap: the tool may stop a thread in the midst of malloc, and what then happens in the
 * core takes memory. c/build gives the proved library's heap these names in place of malloc,
 * realloc and free. */
#define _GNU_SOURCE
#include "live.h"
#include "locks.h"

#include <pthread.h>
#include <stdint.h>
#include <stdlib.h>
#include <string.h>
#include <sys/mman.h>

#define CHUNK ((size_t)1 << 20)
#define LEAST_BITS 5
#define MOST_BITS 18 /* larger blocks are mapped by themselves */

/* Before each block: its bits if it is of a list, or 0; and all its bytes. */
typedef struct head { size_t bits, bytes; } head;
typedef struct spare { struct spare *next; } spare;

static spare *spares[MOST_BITS + 1];
static unsigned char *at, *end;

void *kl_heap_malloc(size_t size);
void *kl_heap_realloc(void *block, size_t size);
void kl_heap_free(void *block);

static void *mapped(size_t bytes) {
    void *got = mmap(NULL, bytes, PROT_READ | PROT_WRITE, MAP_PRIVATE | MAP_ANONYMOUS, -1, 0);
    return got == MAP_FAILED ? NULL : got;
}

/* The next bytes of the chunk, or of a new one; under the lock. */
static void *cut(size_t bytes) {
    if ((size_t)(end - at) < bytes) {
        unsigned char *chunk = mapped(CHUNK);
        if (!chunk) return NULL;
        at = chunk;
        end = chunk + CHUNK;
    }
    void *got = at;
    at += bytes;
    return got;
}

static head *of_list(size_t bits) {
    pthread_mutex_lock(&kl_heap_lock);
    spare *got = spares[bits];
    if (got) spares[bits] = got->next;
    else got = cut((size_t)1 << bits);
    pthread_mutex_unlock(&kl_heap_lock);
    return (head *)got;
}

void *kl_heap_malloc(size_t size) {
    if (!kl_is_live()) return malloc(size);
    if (size > SIZE_MAX - sizeof(head) - CHUNK) return NULL;
    size_t bytes = size + sizeof(head), bits = LEAST_BITS;
    while (bits <= MOST_BITS && (size_t)1 << bits < bytes) bits++;
    head *h = bits <= MOST_BITS ? of_list(bits) : mapped(bytes);
    if (!h) return NULL;
    h->bits = bits <= MOST_BITS ? bits : 0;
    h->bytes = h->bits ? (size_t)1 << bits : bytes;
    return h + 1;
}

void kl_heap_free(void *block) {
    if (!kl_is_live()) {
        free(block);
        return;
    }
    if (!block) return;
    head *h = (head *)block - 1;
    size_t bits = h->bits;
    if (!bits) {
        munmap(h, h->bytes);
        return;
    }
    spare *given = (spare *)h;
    pthread_mutex_lock(&kl_heap_lock);
    given->next = spares[bits];
    spares[bits] = given;
    pthread_mutex_unlock(&kl_heap_lock);
}

void *kl_heap_realloc(void *block, size_t size) {
    if (!kl_is_live()) return realloc(block, size);
    if (!block) return kl_heap_malloc(size);
    size_t room = ((head *)block - 1)->bytes - sizeof(head);
    if (size <= room) return block;
    void *more = kl_heap_malloc(size);
    if (!more) return NULL;
    memcpy(more, block, room);
    kl_heap_free(block);
    return more;
}
