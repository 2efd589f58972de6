/* What the programs of this folder share: PROGRAM MODE COUNT ROUNDS makes the posts of the mode and takes all messages, so many
 * times on one queue, and prints the nanoseconds of processor time that it cost a message.
 *
 *     chain    each message posts the next one for now
 *     burst    COUNT messages for now are posted, then all are taken
 *     rising   the same for rising times, all of them past once they are taken
 *     scatter  the same for scattered times
 *     posters  four threads post COUNT messages in all, each for now, while one thread takes them
 *     pair     one thread posts them, and it and the one that takes them have a processor of their own
 *     quad     three threads post them, and each of the four has a processor of its own
 *
 * For pair and quad it prints nanoseconds of elapsed time. */
#ifndef BENCH_H
#define BENCH_H

#include <sched.h>
#include <stdint.h>
#include <stdio.h>
#include <stdlib.h>
#include <string.h>
#include <time.h>

enum { POSTERS = 4 };

/* What a posting thread does: so many posts, on this processor, or on any where it is -1. */
struct share {
    long count;
    int processor;
};

static inline uint64_t nanoseconds(clockid_t clock)
{
    struct timespec time;
    clock_gettime(clock, &time);
    return (uint64_t)time.tv_sec * 1000000000u + (uint64_t)time.tv_nsec;
}

/* Of all threads of this process. */
static inline uint64_t processor_time(void)
{
    return nanoseconds(CLOCK_PROCESS_CPUTIME_ID);
}

/* The next of a fixed sequence of scattered numbers below the limit. */
static inline uint64_t scattered(uint64_t limit)
{
    static uint64_t seed = 12345;
    seed = seed * 6364136223846793005u + 1442695040888963407u;
    return (seed >> 33) % limit;
}

static inline int is_mode(char **words, const char *mode)
{
    return strcmp(words[1], mode) == 0;
}

/* Has each thread a processor of its own? */
static inline int is_apart(char **words)
{
    return is_mode(words, "pair") || is_mode(words, "quad");
}

/* Do threads post while another one takes? */
static inline int has_posters(char **words)
{
    return is_mode(words, "posters") || is_apart(words);
}

static inline int posters_of(char **words)
{
    return is_mode(words, "pair") ? 1 : is_mode(words, "quad") ? POSTERS - 1 : POSTERS;
}

/* The calling thread runs on this processor alone from now on. */
static inline void stay_on(int processor)
{
    cpu_set_t one;
    CPU_ZERO(&one);
    CPU_SET(processor, &one);
    if (processor >= 0 && sched_setaffinity(0, sizeof one, &one) != 0) {
        exit(6);
    }
}

/* The share of the posting thread of this number. Where the threads are apart the one that takes has processor 0. */
static inline struct share share_of(char **words, long count, int number)
{
    struct share share = {count / posters_of(words), is_apart(words) ? number + 1 : -1};
    return share;
}

/* A number of messages that each number of posters divides. */
static inline long count_of(int words, char **word)
{
    long unit = POSTERS * (POSTERS - 1);
    if (words < 4 || atol(word[2]) < unit || atol(word[3]) < 1) {
        fprintf(stderr, "usage: %s chain|burst|rising|scatter|posters|pair|quad COUNT ROUNDS\n", word[0]);
        exit(2);
    }
    return atol(word[2]) / unit * unit;
}

static inline long rounds_of(char **word)
{
    return atol(word[3]);
}

/* The time by which the mode is told: of the processor, or elapsed. */
static inline uint64_t time_of(char **words)
{
    return is_apart(words) ? nanoseconds(CLOCK_MONOTONIC) : processor_time();
}

static inline int report(uint64_t time, long count)
{
    printf("%.1f\n", (double)time / (double)count);
    return 0;
}

#endif
