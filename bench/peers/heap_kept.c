/* The heap of the library over malloc, which keeps freed blocks of a message's size for the next message. The queue's lock guards
 * it too. */
#include "message_queue.h"

#include <malloc.h>
#include <stdlib.h>

/* At least a message's block, so that each block of this class serves the next message. */
enum { LEAST = 120 };

static void *kept;
static char nothing;

static msgq_memory told(void *at)
{
    msgq_memory memory = {at != NULL, at != NULL ? at : &nothing};
    return memory;
}

msgq_memory rattle_alloc(size_t size, size_t align)
{
    (void)align;
    if (size <= LEAST && kept != NULL) {
        void *at = kept;
        kept = *(void **)at;
        return told(at);
    }
    return told(malloc(size < LEAST ? LEAST : size));
}

msgq_memory rattle_realloc(void *at, size_t was, size_t size, size_t align)
{
    (void)was;
    (void)align;
    return told(realloc(at, size < LEAST ? LEAST : size));
}

void rattle_dealloc(void *at)
{
    if (malloc_usable_size(at) == LEAST) {
        *(void **)at = kept;
        kept = at;
    } else {
        free(at);
    }
}
