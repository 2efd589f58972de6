/* Laid before a program (LD_PRELOAD) it refuses one request: the one whose number, counted from 1, stands in REFUSE. At the end it
   writes how many there were to the file that COUNT names, and how many of them in the first second. A request is a call of malloc, of
   realloc or of pthread_create out of the program's own code, by any of its threads. */
#define _GNU_SOURCE
#include <dlfcn.h>
#include <errno.h>
#include <link.h>
#include <pthread.h>
#include <stdatomic.h>
#include <stddef.h>
#include <stdint.h>
#include <stdio.h>
#include <stdlib.h>
#include <time.h>

typedef void *Start(void *);

static atomic_ulong asked, soon;
static atomic_ulong refused;
static struct timespec began;
static uintptr_t own_begin, own_end;
static void *(*next_malloc)(size_t), *(*next_realloc)(void *, size_t);
static void (*next_free)(void *);
static int (*next_create)(pthread_t *, const pthread_attr_t *, Start *, void *);
/* What is asked for before the next functions are known, for good. */
static _Alignas(16) char first[65536];
static size_t first_used;

/* The first image is the program. */
static int find_own(struct dl_phdr_info *image, size_t size, void *data) {
    (void)size, (void)data;
    for (int at = 0; at < image->dlpi_phnum; at++) {
        const ElfW(Phdr) *part = &image->dlpi_phdr[at];
        if (part->p_type != PT_LOAD || !(part->p_flags & PF_X)) continue;
        own_begin = image->dlpi_addr + part->p_vaddr;
        own_end = own_begin + part->p_memsz;
    }
    return 1;
}

__attribute__((constructor)) static void begin(void) {
    const char *number = getenv("REFUSE");
    clock_gettime(CLOCK_MONOTONIC, &began);
    dl_iterate_phdr(find_own, NULL);
    next_free = dlsym(RTLD_NEXT, "free");
    next_realloc = dlsym(RTLD_NEXT, "realloc");
    next_create = dlsym(RTLD_NEXT, "pthread_create");
    next_malloc = dlsym(RTLD_NEXT, "malloc");
    refused = number ? strtoul(number, NULL, 10) : 0;
}

/* A program that ends so is looked through for leaks here. */
void _exit(int status) {
    const char *name = getenv("COUNT");
    void (*next_exit)(int) = (void (*)(int))dlsym(RTLD_NEXT, "_exit");
    void (*look)(void) = (void (*)(void))dlsym(RTLD_DEFAULT, "__lsan_do_leak_check");
    FILE *file = name ? fopen(name, "w") : NULL;
    if (file) {
        fprintf(file, "%lu %lu\n", atomic_load(&asked), atomic_load(&soon));
        fclose(file);
    }
    if (look) look();
    next_exit(status);
    __builtin_unreachable();
}

static int is_refused(const void *caller) {
    uintptr_t at = (uintptr_t)caller;
    struct timespec now;
    if (at < own_begin || at >= own_end) return 0;
    clock_gettime(CLOCK_MONOTONIC, &now);
    if ((now.tv_sec - began.tv_sec) * 1000000000 + now.tv_nsec - began.tv_nsec < 1000000000) atomic_fetch_add(&soon, 1);
    return atomic_fetch_add(&asked, 1) + 1 == refused;
}

static void *early(size_t size) {
    size_t at = first_used;
    first_used += (size + 15) / 16 * 16;
    return first_used <= sizeof first ? first + at : NULL;
}

void free(void *at) {
    int is_early = (char *)at >= first && (char *)at < first + sizeof first;
    if (!is_early && next_free) next_free(at);
}

void *malloc(size_t size) {
    if (!next_malloc) return early(size);
    if (!is_refused(__builtin_return_address(0))) return next_malloc(size);
    errno = ENOMEM;
    return NULL;
}

void *realloc(void *at, size_t size) {
    if (!next_realloc) return at ? NULL : early(size);
    if (!is_refused(__builtin_return_address(0))) return next_realloc(at, size);
    errno = ENOMEM;
    return NULL;
}

int pthread_create(pthread_t *thread, const pthread_attr_t *how, Start *start, void *data) {
    return is_refused(__builtin_return_address(0)) ? EAGAIN : next_create(thread, how, start, data);
}
