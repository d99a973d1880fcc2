/* A graph that four threads change and walk, along its edges and against them: graph.rs in C. Its
 * specification, rust/examples/graph.relc, says how it is decomposed and locked; the program reads
 * it from the file that its one word names. A session and a frame are one thread's; what threads
 * share is the store, of which they need nothing once it has begun their sessions, and the
 * relc_waiting by which they wait for each other's stripes.
 *
 *     graph FILE
 */
#include "relc_wait.h"

#include <pthread.h>
#include <stdio.h>
#include <stdlib.h>
#include <string.h>

/* the rows of both walks have two cells: the node at the other end, and the weight */
enum { THREADS = 4, CALLS = 5000, NODES = 32, WIDTH = 2, MAX_TEXT = 1 << 16 };

/* the operations, in the order of their names below, and their numbers in the store */
enum { LINK, UNLINK, FIND, SUCC, PRED, OPERATIONS };
static const char *const NAMES[OPERATIONS] = {"link", "unlink", "find", "succ", "pred"};
static uint32_t numbers[OPERATIONS];
static relc_waiting *waiting;

/* a thread's end of the store, and how many edges it added and removed */
struct worker {
    pthread_t thread;
    relc_session *session;
    relc_frame frame;
    relc_page page;
    uint64_t number, added, removed, walked;
};

static void check(int holds, const char *what)
{
    if (!holds) {
        fprintf(stderr, "graph: %s\n", what);
        exit(1);
    }
}

/* Calls an operation by its first `count` values, and waits for others: what the frame tells then
 * is the reply. */
static void call(struct worker *worker, int op, uint32_t count, uint64_t a, uint64_t b, uint64_t c)
{
    relc_frame *frame = &worker->frame;
    frame->op = numbers[op];
    frame->count = count;
    frame->values[0] = a;
    frame->values[1] = b;
    frame->values[2] = c;
    check(relc_call(waiting, worker->session, frame) == RELC_DONE, "no call is refused");
}

/* Calls a query by one node; how many rows it has, which are all listed. */
static uint64_t query(struct worker *worker, int op, uint64_t node)
{
    call(worker, op, 1, node, 0, 0);
    check(worker->frame.kind == RELC_ROWS, "the store was opened without a limit of rows");
    return worker->frame.number;
}

/* The cells of a row of the last reply, whose rows are read in order. They are copied a page at a time,
 * so that no call is made for each, and stand in the page until the next one is copied. */
static const uint64_t *row(struct worker *worker, uint64_t at)
{
    relc_page *page = &worker->page;
    if (at == 0 || at == page->row + page->rows) {
        page->row = at;
        check(relc_rows(worker->session, page) == RELC_DONE, "there is such a row");
    }
    return &page->cells[(at - page->row) * WIDTH];
}

/* Marks the nodes to which a walk comes, by `op`, SUCC or PRED; how many they are. */
static uint64_t walk(struct worker *worker, int op, uint64_t from, char reached[NODES])
{
    uint64_t next[NODES] = {from}, left = 1, count = 1;
    memset(reached, 0, NODES);
    reached[from] = 1;
    while (left > 0) {
        uint64_t rows = query(worker, op, next[--left]);
        for (uint64_t at = 0; at < rows; at++) {
            uint64_t end = row(worker, at)[0];
            if (!reached[end]) {
                reached[end] = 1;
                next[left++] = end;
                count++;
            }
        }
    }
    return count;
}

static void *work(void *given)
{
    struct worker *worker = given;
    char reached[NODES];
    for (uint64_t turn = 0; turn < CALLS; turn++) {
        /* numbers that look random */
        uint64_t random = (turn * THREADS + worker->number) * 0x9e3779b97f4a7c15 >> 32;
        uint64_t src = random % NODES, dst = random / NODES % NODES;
        if (turn % 8 < 3) {
            call(worker, LINK, 3, src, dst, src * dst);
            worker->added += worker->frame.kind == RELC_INSERTED;
        } else if (turn % 8 < 7) {
            call(worker, UNLINK, 2, src, dst, 0);
            worker->removed += worker->frame.kind == RELC_REMOVED;
        } else {
            worker->walked += walk(worker, turn % 16 < 8 ? SUCC : PRED, src, reached);
        }
    }
    return NULL;
}

/* Opens a store by the text of a file, and looks its operations up. */
static relc_store *opened(const char *name)
{
    static uint8_t text[MAX_TEXT];
    FILE *file = fopen(name, "rb");
    check(file != NULL, "the file can be read");
    size_t length = fread(text, 1, sizeof text, file);
    check(feof(file), "the file is shorter than 65,536 bytes");
    fclose(file);
    /* who gives values is trusted here, so the seed need not be drawn */
    relc_open_frame frame = {.passes = THREADS, .limit = (uint64_t)1 << 48};
    relc_store *store = NULL;
    uint32_t code = relc_open(text, length, &frame, &store);
    if (code != RELC_DONE)
        fprintf(stderr, "%.*s\n", (int)frame.length, (const char *)frame.refusal);
    check(code == RELC_DONE, "the store is opened");
    for (int op = 0; op < OPERATIONS; op++) {
        relc_operation_frame asked = {.length = (uint32_t)strlen(NAMES[op])};
        memcpy(asked.name, NAMES[op], asked.length);
        check(relc_operation(store, &asked) == RELC_DONE, "the operation is there");
        numbers[op] = asked.op;
    }
    return store;
}

/* Checks that the edges from the nodes are those to the nodes; how many there are. */
static uint64_t count_edges(struct worker *worker)
{
    uint64_t weights[NODES][NODES], left = 0, entering = 0;
    char linked[NODES][NODES] = {{0}};
    for (uint64_t node = 0; node < NODES; node++) {
        uint64_t rows = query(worker, SUCC, node);
        left += rows;
        for (uint64_t at = 0; at < rows; at++) {
            const uint64_t *cells = row(worker, at);
            linked[node][cells[0]] = 1;
            weights[node][cells[0]] = cells[1];
        }
    }
    for (uint64_t node = 0; node < NODES; node++) {
        uint64_t rows = query(worker, PRED, node);
        entering += rows;
        for (uint64_t at = 0; at < rows; at++) {
            const uint64_t *cells = row(worker, at);
            check(linked[cells[0]][node], "an edge that enters a node leaves another");
            check(weights[cells[0]][node] == cells[1], "it has one weight");
        }
    }
    check(left == entering, "an edge that leaves a node enters another");
    return left;
}

int main(int count, char **words)
{
    check(count == 2, "one word, the file of the specification");
    static struct worker workers[THREADS];
    relc_store *store = opened(words[1]);
    waiting = relc_open_waiting();
    check(waiting != NULL, "there is memory");
    for (uint64_t at = 0; at < THREADS; at++) {
        struct worker *worker = &workers[at];
        worker->number = at;
        check(relc_open_session(store, &worker->session) == RELC_DONE, "there is a session");
        check(pthread_create(&worker->thread, NULL, work, worker) == 0, "there is a thread");
    }
    uint64_t added = 0, removed = 0, walked = 0;
    for (uint64_t at = 0; at < THREADS; at++) {
        check(pthread_join(workers[at].thread, NULL) == 0, "the thread ends");
        added += workers[at].added;
        removed += workers[at].removed;
        walked += workers[at].walked;
    }
    printf("added %llu, removed %llu\n", (unsigned long long)added, (unsigned long long)removed);
    printf("walks came to %llu nodes\n", (unsigned long long)walked);
    uint64_t left = count_edges(&workers[0]);
    check(left == added - removed, "no edge was lost");
    printf("%llu edges are left, in both directions\n", (unsigned long long)left);
    for (uint64_t at = 0; at < THREADS; at++)
        relc_close_session(workers[at].session);
    relc_close_waiting(waiting);
    relc_close_store(store);
    return 0;
}
