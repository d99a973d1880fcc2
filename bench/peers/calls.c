/* Measures calls through relc.h: the mixes of mixes.h by one, two and four threads, each of which waits
 * where another is in the way. All rows of a reply are read, a page at a time. `sh bench/embed.sh`
 * builds and runs it.
 *
 *     calls SPECIFICATION NODES CALLS [TIMES]
 *
 * Each line: the mix, the threads, what was called, and the nanoseconds of a thread's call. With
 * TIMES one thread makes the calls of one mix so many times over, and the most memory is told that
 * the program had (`sh bench/long.sh`). */
#include "mixes.h"
#include "relc_wait.h"

#include <pthread.h>
#include <stdio.h>
#include <stdlib.h>
#include <string.h>
#include <sys/resource.h>
#include <time.h>

#define TEXT_ROOM (1 << 16)

static const char *const NAMES[OPERATIONS] = {"succ", "pred", "ins", "del"};

static const char *text; /* the specification */

struct side {
    relc_waiting *waiting;
    relc_session *session;
    const uint32_t *numbers;
    const struct call *calls;
    size_t count;
};

/* sets what is asked: an edge, or the node whose neighbours are wanted */
static void ask(relc_frame *frame, const uint32_t *numbers, const struct call *call)
{
    frame->op = numbers[call->operation];
    frame->count = call->operation == INS ? 3 : call->operation == DEL ? 2 : 1;
    frame->values[0] = call->operation == PRED ? call->target : call->source;
    frame->values[1] = call->target;
    frame->values[2] = call->weight;
}

/* the sum of the cells of so many rows, each of which has this width */
static uint64_t read_rows(relc_session *session, relc_page *page, uint64_t rows, uint64_t width)
{
    uint64_t sum = 0;
    for (page->row = 0; page->row < rows; page->row += page->rows) {
        WANT(relc_rows(session, page) == RELC_DONE);
        for (uint64_t at = 0; at < page->rows * width; at++)
            sum += page->cells[at];
    }
    return sum;
}

static void *work(void *of)
{
    struct side *side = of;
    relc_frame frame = {0};
    relc_page page;
    uint64_t read = 0;
    for (size_t at = 0; at < side->count; at++) {
        ask(&frame, side->numbers, &side->calls[at]);
        WANT(relc_call(side->waiting, side->session, &frame) == RELC_DONE);
        /* a neighbour has its weight beside it, and a tuple that was removed both ends */
        if (frame.kind == RELC_ROWS)
            read += read_rows(side->session, &page, frame.number, 2);
        else if (frame.kind == RELC_REMOVED)
            read += read_rows(side->session, &page, 1, 3);
    }
    return (void *)(uintptr_t)read;
}

static relc_store *open_store(int passes, uint64_t limit, uint32_t *numbers)
{
    relc_open_frame frame = {.passes = (uint32_t)passes, .limit = limit, .seed = {1, 2}};
    relc_store *store = NULL;
    WANT(relc_open((const uint8_t *)text, strlen(text), &frame, &store) == RELC_DONE);
    for (int operation = 0; operation < OPERATIONS; operation++) {
        relc_operation_frame named = {.length = (uint32_t)strlen(NAMES[operation])};
        memcpy(named.name, NAMES[operation], named.length);
        WANT(relc_operation(store, &named) == RELC_DONE);
        numbers[operation] = named.op;
    }
    return store;
}

static double measure(const struct call *calls, int threads, size_t each)
{
    uint32_t numbers[OPERATIONS];
    relc_store *store = open_store(threads, each, numbers);
    relc_waiting *waiting = relc_open_waiting();
    WANT(waiting != NULL);
    struct side sides[4];
    pthread_t ids[4];
    double begun = now();
    for (int side = 0; side < threads; side++) {
        sides[side] = (struct side){waiting, NULL, numbers, calls + (size_t)side * each, each};
        WANT(relc_open_session(store, &sides[side].session) == RELC_DONE);
        WANT(pthread_create(&ids[side], NULL, work, &sides[side]) == 0);
    }
    for (int side = 0; side < threads; side++)
        WANT(pthread_join(ids[side], NULL) == 0);
    double time = (now() - begun) / (double)each;
    for (int side = 0; side < threads; side++)
        relc_close_session(sides[side].session);
    relc_close_waiting(waiting);
    relc_close_store(store);
    return time;
}

/* makes the calls so many times over, and tells the most memory that the program had */
static void endure(const struct call *calls, size_t each, uint64_t times)
{
    uint32_t numbers[OPERATIONS];
    relc_store *store = open_store(1, 1ull << 48, numbers);
    struct side side = {relc_open_waiting(), NULL, numbers, calls, each};
    WANT(side.waiting != NULL);
    WANT(relc_open_session(store, &side.session) == RELC_DONE);
    for (uint64_t time = 0; time < times; time++)
        work(&side);
    relc_close_session(side.session);
    relc_close_waiting(side.waiting);
    relc_close_store(store);
    struct rusage usage;
    WANT(getrusage(RUSAGE_SELF, &usage) == 0);
    printf("%llu calls, %ld kB\n", (unsigned long long)(each * times), usage.ru_maxrss);
}

static char *read_text(const char *path)
{
    FILE *file = fopen(path, "rb");
    WANT(file != NULL);
    char *all = calloc(1, TEXT_ROOM);
    WANT(all != NULL && fread(all, 1, TEXT_ROOM - 1, file) > 0);
    fclose(file);
    return all;
}

int main(int count, char **words)
{
    WANT(count == 4 || count == 5);
    char *all = read_text(words[1]);
    text = all;
    uint64_t nodes = strtoull(words[2], NULL, 10);
    size_t each = strtoull(words[3], NULL, 10);
    WANT(nodes > 0 && each > 0);
    if (count == 4) {
        measure_mixes(measure, "through C", nodes, each);
    } else {
        struct call *calls = calls_of(MIXES[1], nodes, each);
        endure(calls, each, strtoull(words[4], NULL, 10));
        free(calls);
    }
    free(all);
    return 0;
}
