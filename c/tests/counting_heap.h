/* A heap over malloc that counts what is in use, and fails each `fail_each`-th request. */
#include "message_queue.h"

#include <stdatomic.h>
#include <stdlib.h>
#ifdef __GLIBC__
#include <malloc.h>
#else
#define malloc_usable_size(at) 0
#endif

static atomic_size_t in_use, blocks;
static atomic_ulong requests, refused;
static unsigned long fail_each;
static char nothing;

static bool fails(void)
{
    unsigned long n = ++requests;
    bool it = fail_each != 0 && n % fail_each == 0;
    refused += it;
    return it;
}

msgq_memory rattle_alloc(size_t size, size_t align)
{
    void *at = fails() ? NULL : malloc(size != 0 ? size : align);
    if (at == NULL) return (msgq_memory){false, &nothing};
    blocks++;
    in_use += malloc_usable_size(at);
    return (msgq_memory){true, at};
}

msgq_memory rattle_realloc(void *at, size_t kept, size_t size, size_t align)
{
    (void)kept;
    size_t before = malloc_usable_size(at);
    void *to = fails() ? NULL : realloc(at, size != 0 ? size : align);
    if (to == NULL) return (msgq_memory){false, &nothing};
    in_use -= before;
    in_use += malloc_usable_size(to);
    return (msgq_memory){true, to};
}

void rattle_dealloc(void *at)
{
    in_use -= malloc_usable_size(at);
    blocks--;
    free(at);
}
