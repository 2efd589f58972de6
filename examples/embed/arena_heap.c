/* The heap of a program without malloc: a fixed block. Free blocks are kept in order of their places, the first that is large enough
 * is taken, and one that comes back joins its neighbours. It takes no lock: the queue's serves it where there is one queue, and else
 * it wants one of its own. */
#include "message_queue.h"

#include <string.h>

#ifndef ARENA
#define ARENA (64 * 1024)
#endif

/* A block: its size with this head, and where it is free the next free one. */
typedef struct block {
    size_t size;
    struct block *next;
} block;

enum { HEAD = 16, LEAST = 32 };

static union {
    block first;
    char bytes[ARENA];
} arena __attribute__((aligned(16)));
static block *freed;
static bool begun;
size_t arena_requests; /* how often memory was asked for */

static size_t whole(size_t size)
{
    size_t all = (size + HEAD + 15) / 16 * 16;
    return all < LEAST ? LEAST : all;
}

static msgq_memory told(block *at)
{
    msgq_memory memory = {at != NULL, at != NULL ? (char *)at + HEAD : (char *)&arena};
    return memory;
}

static block *taken(size_t size)
{
    if (!begun) {
        begun = true;
        freed = &arena.first;
        freed->size = sizeof arena;
        freed->next = NULL;
    }
    for (block **at = &freed; *at != NULL; at = &(*at)->next) {
        block *it = *at;
        if (it->size < size) continue;
        if (it->size - size < LEAST) {
            *at = it->next;
        } else {
            block *rest = (block *)((char *)it + size);
            rest->size = it->size - size;
            rest->next = it->next;
            *at = rest;
            it->size = size;
        }
        return it;
    }
    return NULL;
}

static void join(block *it)
{
    if (it->next == NULL || (char *)it + it->size != (char *)it->next) return;
    it->size += it->next->size;
    it->next = it->next->next;
}

msgq_memory rattle_alloc(size_t size, size_t align)
{
    (void)align; /* all blocks are aligned to 16 */
    arena_requests++;
    return told(size > sizeof arena ? NULL : taken(whole(size)));
}

void rattle_dealloc(void *at)
{
    block *it = (block *)((char *)at - HEAD), *before = NULL, *behind = freed;
    while (behind != NULL && behind < it) {
        before = behind;
        behind = behind->next;
    }
    it->next = behind;
    if (before == NULL) freed = it;
    else before->next = it;
    join(it);
    if (before != NULL) join(before);
}

msgq_memory rattle_realloc(void *at, size_t kept, size_t size, size_t align)
{
    msgq_memory memory = rattle_alloc(size, align);
    if (memory.ok) {
        memcpy(memory.at, at, kept < size ? kept : size);
        rattle_dealloc(at);
    }
    return memory;
}
