/* The heap of a program that embeds the queue, over malloc. A program without malloc has its own here. */
#include "message_queue.h"

#include <stdlib.h>

static char nothing;

static msgq_memory told(void *at)
{
    msgq_memory memory = {at != NULL, at != NULL ? at : &nothing};
    return memory;
}

msgq_memory rattle_alloc(size_t size, size_t align)
{
    return told(malloc(size != 0 ? size : align));
}

msgq_memory rattle_realloc(void *at, size_t kept, size_t size, size_t align)
{
    (void)kept;
    return told(realloc(at, size != 0 ? size : align));
}

void rattle_dealloc(void *at)
{
    free(at);
}
