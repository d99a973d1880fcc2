/* The calls that programs measure beside each other, in C and in C++: the mixes of store.rs on its graph of both
 * directions, in the same order. */
#ifndef MIXES_H
#define MIXES_H

#include <stdint.h>
#include <stdio.h>
#include <stdlib.h>
#include <time.h>

#define WANT(what)                                                     \
    do {                                                               \
        if (!(what)) {                                                 \
            fprintf(stderr, "%s:%d: %s\n", __FILE__, __LINE__, #what); \
            exit(1);                                                   \
        }                                                              \
    } while (0)

enum operation { SUCC, PRED, INS, DEL, OPERATIONS };

/* how many of a hundred calls are of each operation */
enum { MIX_COUNT = 5 };
static const uint64_t MIXES[MIX_COUNT][OPERATIONS] = {
    {70, 0, 20, 10}, {35, 35, 20, 10}, {0, 0, 50, 50}, {45, 45, 9, 1}, {100, 0, 0, 0}};

struct call {
    enum operation operation;
    uint64_t source, target, weight;
};

/* numbers that look random (xorshift) */
static inline uint64_t below(uint64_t *state, uint64_t limit)
{
    *state ^= *state << 13;
    *state ^= *state >> 7;
    *state ^= *state << 17;
    return (*state >> 11) % limit;
}

static inline struct call *calls_of(const uint64_t *mix, uint64_t nodes, size_t count)
{
    struct call *calls = (struct call *)malloc(count * sizeof *calls);
    WANT(calls != NULL);
    uint64_t state = 1;
    for (size_t at = 0; at < count; at++) {
        uint64_t chance = below(&state, 100);
        int operation = SUCC;
        for (; operation < DEL && chance >= mix[operation]; operation++)
            chance -= mix[operation];
        calls[at].operation = (enum operation)operation;
        calls[at].source = below(&state, nodes);
        calls[at].target = below(&state, nodes);
        calls[at].weight = below(&state, 1024);
    }
    return calls;
}

/* nanoseconds */
static inline double now(void)
{
    struct timespec time;
    clock_gettime(CLOCK_MONOTONIC, &time);
    return 1e9 * (double)time.tv_sec + (double)time.tv_nsec;
}

/* the nanoseconds of a thread's call, where so many threads make so many of these calls each; threads begin and end in
 * that time */
typedef double measured(const struct call *calls, int threads, size_t each);

/* a line for each mix and number of threads, which is 1 alone with ONE_THREAD in the environment: what was called, and the
 * nanoseconds */
static inline void measure_mixes(measured *measure, const char *called, uint64_t nodes, size_t each)
{
    int most = getenv("ONE_THREAD") != NULL ? 1 : 4;
    for (int mix = 0; mix < MIX_COUNT; mix++) {
        const uint64_t *shares = MIXES[mix];
        for (int threads = 1; threads <= most; threads *= 2) {
            struct call *calls = calls_of(shares, nodes, (size_t)threads * each);
            double time = measure(calls, threads, each);
            printf("split %d-%d-%d-%d, %d, %s: %.0f ns a call\n", (int)shares[SUCC], (int)shares[PRED],
                (int)shares[INS], (int)shares[DEL], threads, called, time);
            free(calls);
        }
    }
}

#endif
