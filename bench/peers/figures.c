/* Measures calls of one kind through relc.h, by one thread, on a store that has so many tuples of
 * examples/graph.relc. `sh bench/figures.sh` builds and runs it.
 *
 *     figures SPECIFICATION TUPLES KIND CALLS
 *
 * KIND is insert (of edges that aren't there), find (of edges that are), remove (of such), cancel
 * (of inserts that are begun, and their begin), few (the rows of a node that has 10) or many (of
 * one that has 210); CALLS is at most TUPLES. It
 * prints the nanoseconds and the allocations of a call, and the bytes that a tuple takes. The rows
 * of a reply are read, a page at a time, and that is counted too. Under callgrind only the calls are
 * collected. */
#include "relc.h"

#include <malloc.h>
#include <stdio.h>
#include <stdlib.h>
#include <string.h>
#include <time.h>
#include <valgrind/callgrind.h>

#define WANT(what)                                                     \
    do {                                                               \
        if (!(what)) {                                                 \
            fprintf(stderr, "%s:%d: %s\n", __FILE__, __LINE__, #what); \
            exit(1);                                                   \
        }                                                              \
    } while (0)

enum { DEGREE = 16, FEW = 10, MANY = 210, HUBS = 1 << 20 };

enum kind { INSERT, FIND, REMOVE, CANCEL, ASK_FEW, ASK_MANY, KINDS };

static const char *const KIND_NAMES[KINDS] = {"insert", "find", "remove", "cancel", "few", "many"};

static uint64_t allocated;

/* the linker puts these in place of malloc and realloc (--wrap) */
void *__real_malloc(size_t size);
void *__real_realloc(void *block, size_t size);

void *__wrap_malloc(size_t size)
{
    allocated++;
    return __real_malloc(size);
}

void *__wrap_realloc(void *block, size_t size)
{
    allocated++;
    return __real_realloc(block, size);
}

static relc_session *session;
static uint32_t ins, del, succ, find;

static relc_frame frame;
static relc_page page;

static void fill(uint32_t op, uint64_t source, uint64_t target, uint64_t weight)
{
    frame.op = op;
    frame.count = op == ins ? 3 : op == succ ? 1 : 2;
    frame.values[0] = source;
    frame.values[1] = target;
    frame.values[2] = weight;
}

static void make(uint32_t op, uint64_t source, uint64_t target, uint64_t weight, uint32_t kind)
{
    fill(op, source, target, weight);
    WANT(relc_try_call(session, &frame) == RELC_DONE && frame.kind == kind);
}

/* begins an insert, and cancels it */
static void cancel(uint64_t source, uint64_t target)
{
    fill(ins, source, target, 0);
    WANT(relc_begin(session, &frame) == RELC_DONE && frame.kind == RELC_INSERTED);
    WANT(relc_cancel(session, &frame) == RELC_DONE);
}

/* asks for rows, and reads them all */
static void ask(uint32_t op, uint64_t source, uint64_t target, uint64_t rows)
{
    make(op, source, target, 0, RELC_ROWS);
    WANT(frame.number == rows);
    for (page.row = 0; page.row < rows; page.row += page.rows)
        WANT(relc_rows(session, &page) == RELC_DONE);
}

/* the k-th edge: sources have DEGREE targets each, which are spread */
static uint64_t source_of(uint64_t k) { return k / DEGREE; }

static uint64_t target_of(uint64_t k) { return k * 2654435761u % 1000003; }

static void call(enum kind kind, uint64_t k, uint64_t tuples)
{
    /* no two alike, since TUPLES isn't a multiple of it */
    uint64_t some = k * 7919 % tuples;
    switch (kind) {
    case INSERT:
        make(ins, source_of(some), 2000000 + k, k, RELC_INSERTED);
        break;
    case FIND:
        ask(find, source_of(some), target_of(some), 1);
        break;
    case REMOVE:
        make(del, source_of(some), target_of(some), 0, RELC_REMOVED);
        break;
    case CANCEL:
        cancel(source_of(some), 2000000 + k);
        break;
    case ASK_FEW:
        ask(succ, HUBS, 0, FEW);
        break;
    default:
        ask(succ, HUBS + 1, 0, MANY);
    }
}

static enum kind kind_of(const char *name)
{
    for (int kind = 0; kind < KINDS; kind++)
        if (strcmp(KIND_NAMES[kind], name) == 0)
            return kind;
    fprintf(stderr, "figures: there is no kind %s\n", name);
    exit(1);
}

/* the bytes that malloc has given out, with those of blocks that it maps */
static size_t in_use(void)
{
    struct mallinfo2 now = mallinfo2();
    return now.uordblks + now.hblkhd;
}

static uint32_t number_of(relc_store *store, const char *name)
{
    relc_operation_frame named = {.length = (uint32_t)strlen(name)};
    memcpy(named.name, name, named.length);
    WANT(relc_operation(store, &named) == RELC_DONE);
    return named.op;
}

static double now(void)
{
    struct timespec time;
    clock_gettime(CLOCK_MONOTONIC, &time);
    return 1e9 * (double)time.tv_sec + (double)time.tv_nsec;
}

int main(int count, char **words)
{
    static char text[1 << 16];
    WANT(count == 5);
    FILE *file = fopen(words[1], "rb");
    WANT(file != NULL && fread(text, 1, sizeof text - 1, file) > 0);
    uint64_t tuples = strtoull(words[2], NULL, 10), calls = strtoull(words[4], NULL, 10);
    WANT(0 < calls && calls <= tuples && tuples <= (uint64_t)DEGREE * HUBS && tuples % 7919 != 0);
    enum kind kind = kind_of(words[3]);
    relc_open_frame options = {.passes = 1, .limit = 1ull << 40, .seed = {1, 2}};
    relc_store *store = NULL;
    WANT(relc_open((const uint8_t *)text, strlen(text), &options, &store) == RELC_DONE);
    WANT(relc_open_session(store, &session) == RELC_DONE);
    ins = number_of(store, "ins");
    del = number_of(store, "del");
    succ = number_of(store, "succ");
    find = number_of(store, "find");
    size_t before = in_use();
    for (uint64_t k = 0; k < tuples; k++)
        make(ins, source_of(k), target_of(k), k, RELC_INSERTED);
    double bytes = (double)(in_use() - before) / (double)tuples;
    for (uint64_t k = 0; k < FEW; k++)
        make(ins, HUBS, k, k, RELC_INSERTED);
    for (uint64_t k = 0; k < MANY; k++)
        make(ins, HUBS + 1, k, k, RELC_INSERTED);
    call(FIND, 0, tuples);
    allocated = 0;
    double begun = now();
    CALLGRIND_TOGGLE_COLLECT;
    for (uint64_t k = 0; k < calls; k++)
        call(kind, k, tuples);
    CALLGRIND_TOGGLE_COLLECT;
    double time = (now() - begun) / (double)calls;
    printf("%s, %llu tuples: %.0f ns, %.2f allocations, %.0f bytes a tuple\n", words[3],
        (unsigned long long)tuples, time, (double)allocated / (double)calls, bytes);
    relc_close_session(session);
    relc_close_store(store);
    return 0;
}
