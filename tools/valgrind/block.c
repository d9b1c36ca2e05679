#include "block.h"

#include "pub_tool_libcbase.h"
#include "pub_tool_mallocfree.h"

#include "profile.h"
#include "tape.h"

#define FIRST_BUCKETS 4096
#define CHUNK 336 /* most blocks have less */

typedef struct chunk { struct chunk *next; SizeT used, size; ULong memory[]; } chunk;

static block **buckets; /* by the first address */
static UInt last_bucket, blocks;

static UInt bucket_of(Addr pc) { return (UInt)(pc * 0x9e3779b97f4a7c15UL >> 40) & last_bucket; }

static void make_buckets(UInt count) {
    block **before = buckets;
    UInt last = last_bucket;
    buckets = VG_(calloc)("blocks", count, sizeof *buckets);
    last_bucket = count - 1;
    for (UInt i = 0; before && i <= last; i++)
        for (block *b = before[i], *next; b; b = next) {
            next = b->next;
            b->next = buckets[bucket_of(b->pc)];
            buckets[bucket_of(b->pc)] = b;
        }
    if (before) VG_(free)(before);
}

/* A block whose code runs no more may still be that of a thread. */
static void leave_block(const block *b) {
    for (ThreadId tid = 1; tid < VG_N_THREADS; tid++) {
        core *c = core_of(tid);
        if (!c || c->at != b) continue;
        if (c->tape) tape_leaves_block(c);
        c->at = NULL;
    }
}

static void forget(Addr pc, Bool is_close) {
    block **at = buckets ? &buckets[bucket_of(pc)] : NULL;
    while (at && *at && ((*at)->pc != pc || (*at)->is_close != is_close)) at = &(*at)->next;
    if (!at || !*at) return;
    block *b = *at;
    leave_block(b);
    profile_takes_block(b);
    *at = b->next;
    blocks--;
    for (chunk *c = b->chunks, *next; c; c = next) {
        next = c->next;
        VG_(free)(c);
    }
    VG_(free)(b);
}

void block_forget(Addr pc) { forget(pc, False); }

void blocks_each(void (*f)(block *b)) {
    for (UInt i = 0; buckets && i <= last_bucket; i++)
        for (block *b = buckets[i]; b; b = b->next) f(b);
}

block *new_block(Addr pc, Bool is_close) {
    forget(pc, is_close);
    if (!buckets) make_buckets(FIRST_BUCKETS);
    if (++blocks > last_bucket) make_buckets(2 * (last_bucket + 1));
    block *b = VG_(calloc)("block", 1, sizeof *b);
    b->pc = pc;
    b->is_close = is_close;
    b->next = buckets[bucket_of(pc)];
    buckets[bucket_of(pc)] = b;
    return b;
}

void *block_memory(block *b, SizeT size) {
    size = (size + 7) & ~(SizeT)7;
    chunk *c = b->chunks;
    if (!c || c->used + size > c->size) {
        SizeT room = size > CHUNK ? size : CHUNK;
        c = VG_(malloc)("block", sizeof *c + room);
        *c = (chunk){b->chunks, 0, room};
        b->chunks = c;
    }
    void *memory = (UChar *)c->memory + c->used;
    c->used += size;
    return memory;
}
