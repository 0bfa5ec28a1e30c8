/* The tracer's memory. The library for C calls these in place of malloc, realloc and free (the linker's --wrap). A block is a power of two, cut from chunks
 * and kept for the next that wants one; a larger one is mapped alone. */
#define _GNU_SOURCE
#include <sched.h>
#include <string.h>
#include <sys/mman.h>
#include "trace_malloc.h"

volatile int is_memory_closed;

enum { HEAD = 16, SMALLEST = 6, LARGEST = 16, CHUNK = 1 << 20 };

struct block {
    size_t bytes; /* with the head */
    struct block *next;
};

static struct block *kept[LARGEST + 1];
static char *chunk, *chunk_end;
static int memory_lock;

static void lock_memory(void) {
    while (__atomic_exchange_n(&memory_lock, 1, __ATOMIC_ACQUIRE)) sched_yield();
}

static void unlock_memory(void) {
    __atomic_store_n(&memory_lock, 0, __ATOMIC_RELEASE);
}

void *mapped(size_t bytes) {
    void *place = mmap(NULL, bytes, PROT_READ | PROT_WRITE, MAP_PRIVATE | MAP_ANONYMOUS, -1, 0);
    return place == MAP_FAILED ? NULL : place;
}

/* A small block of the class: one that was kept, or else one of a chunk. */
static struct block *small_block(int class) {
    size_t bytes = (size_t)1 << class;
    struct block *block = kept[class];
    if (block) {
        kept[class] = block->next;
        return block;
    }
    if ((size_t)(chunk_end - chunk) < bytes) {
        if (!(chunk = mapped(CHUNK))) {
            chunk_end = NULL;
            return NULL;
        }
        chunk_end = chunk + CHUNK;
    }
    block = (struct block *)chunk;
    chunk += bytes;
    block->bytes = bytes;
    return block;
}

void *__wrap_malloc(size_t bytes) {
    struct block *block;
    size_t with_head = bytes + HEAD;
    int class = SMALLEST;
    if (with_head < bytes || is_memory_closed) return NULL;
    if (with_head > (size_t)1 << LARGEST) {
        if (!(block = mapped(with_head))) return NULL;
        block->bytes = with_head;
    } else {
        while ((size_t)1 << class < with_head) class++;
        lock_memory();
        block = small_block(class);
        unlock_memory();
    }
    return block ? (char *)block + HEAD : NULL;
}

/* In a child another thread may have held the lock when it was made, so that nothing is taken back there. */
void __wrap_free(void *place) {
    struct block *block = (struct block *)((char *)place - HEAD);
    int class = SMALLEST;
    if (!place || is_memory_closed) return;
    if (block->bytes > (size_t)1 << LARGEST) {
        munmap(block, block->bytes);
        return;
    }
    while ((size_t)1 << class < block->bytes) class++;
    lock_memory();
    block->next = kept[class];
    kept[class] = block;
    unlock_memory();
}

void *__wrap_realloc(void *place, size_t bytes) {
    size_t room = place ? ((struct block *)((char *)place - HEAD))->bytes - HEAD : 0;
    void *moved;
    if (place && bytes <= room) return place;
    if (!(moved = __wrap_malloc(bytes))) return NULL;
    if (place) memcpy(moved, place, room);
    __wrap_free(place);
    return moved;
}
