/* Tests what wants memory: while a call or a group is made, prepared or open the N-th allocation fails, alone or
 * with all behind it, for N from 1 until none fails. Whatever is refused so leaves all as before, its
 * stripes are free at once, and all memory is given back at last. Prints one line and ends with 0
 * where all is as it should be. */
#include "relc.h"

#include <stdio.h>
#include <stdlib.h>
#include <string.h>

#define CHECK(what)                                                        \
    do {                                                                   \
        if (!(what)) {                                                     \
            fprintf(stderr, "%s:%d: %s\n", __FILE__, __LINE__, #what);     \
            exit(1);                                                       \
        }                                                                  \
    } while (0)

/* ---- memory: that of heap.c, whose allocations are counted, and some of which fail */

static struct {
    unsigned asked;   /* how many allocations were asked for since it was set */
    unsigned fails;   /* the number of the first that fails, from 1; 0 for none */
    int fails_on;     /* whether all behind it fail too */
    unsigned refused; /* how many failed */
    long blocks;      /* how many blocks were given and are not given back, from the start on */
} memory;

static int is_refused(void)
{
    memory.asked++;
    int is = memory.asked == memory.fails
        || (memory.fails_on && memory.fails != 0 && memory.asked > memory.fails);
    memory.refused += (unsigned)is;
    return is;
}

static void *counted_malloc(size_t size)
{
    void *block = is_refused() ? NULL : malloc(size);
    memory.blocks += block != NULL;
    return block;
}

static void *counted_realloc(void *old, size_t size)
{
    return is_refused() ? NULL : realloc(old, size);
}

static void counted_free(void *block)
{
    memory.blocks--;
    free(block);
}

#define malloc counted_malloc
#define realloc counted_realloc
#define free counted_free
#include "heap.c"
#undef malloc
#undef realloc
#undef free

static void fail(unsigned number, int fails_on)
{
    memory.asked = memory.refused = 0;
    memory.fails = number;
    memory.fails_on = fails_on;
}

/* answers how many failed */
static unsigned fail_no_more(void)
{
    memory.fails = 0;
    return memory.refused;
}

/* ---- what is tried on: edges of a graph, and two sessions */

static const char GRAPH[] =
    "relc 2\ncol src num\ncol dst num\ncol weight num\nfd src dst -> weight\n"
    "node root\nnode u src\nnode w src dst\nnode z src dst weight\n"
    "edge e1 root u hash src\nedge e2 u w ordered dst\nedge e3 w z singleton weight\n"
    "lock k1 8 src\nlock k2 4 src\nplace e1 k1\nplace e2 k2\nplace e3 k2\n"
    "op ins insert src dst\nop del remove src dst\nop set update src dst\n"
    "op succ query src -> dst weight\nop near query src : dst -> dst weight\nend\n";

/* its operations, and how many values their patterns have */
enum { INS, DEL, SET, SUCC, NEAR, OPERATIONS };
static const uint32_t PATTERN[OPERATIONS] = {2, 2, 2, 1, 1};

#define NODES 24 /* more than any call names */

/* The calls that are made as one, of all kinds, and what they are answered. With them tables grow. */
static const struct {
    relc_frame asked;
    uint32_t kind;
} CALLS[] = {
    {{.op = INS, .count = 3, .values = {1, 9, 90}}, RELC_INSERTED},
    {{.op = DEL, .count = 2, .values = {2, 1}}, RELC_REMOVED},
    {{.op = SET, .count = 3, .values = {1, 2, 21}}, RELC_UPDATED},
    {{.op = SUCC, .count = 1, .values = {1}}, RELC_ROWS},
    {{.op = NEAR, .count = 3, .values = {3, 2, 9}}, RELC_ROWS},
    {{.op = INS, .count = 3, .values = {1, 9, 91}}, RELC_PRESENT},
    {{.op = DEL, .count = 2, .values = {2, 1}}, RELC_ABSENT},
    {{.op = INS, .count = 3, .values = {11, 1, 0}}, RELC_INSERTED},
    {{.op = INS, .count = 3, .values = {12, 1, 0}}, RELC_INSERTED},
    {{.op = INS, .count = 3, .values = {13, 1, 0}}, RELC_INSERTED},
    {{.op = INS, .count = 3, .values = {14, 1, 0}}, RELC_INSERTED},
    {{.op = INS, .count = 3, .values = {15, 1, 0}}, RELC_INSERTED},
    {{.op = INS, .count = 3, .values = {1, 10, 100}}, RELC_INSERTED},
    {{.op = INS, .count = 3, .values = {1, 11, 110}}, RELC_INSERTED},
    {{.op = DEL, .count = 2, .values = {11, 1}}, RELC_REMOVED},
    {{.op = SUCC, .count = 1, .values = {1}}, RELC_ROWS},
};
#define COUNT (sizeof CALLS / sizeof CALLS[0])
_Static_assert(COUNT == RELC_GROUP, "a group of as many calls as there may be");

static relc_session *session, *other;
static relc_frame frames[COUNT];
static uint64_t entries, own; /* how many calls and groups were made, and how many by `session` */

/* Makes a call that nothing is in the way of. */
static void call(relc_session *by, relc_frame *frame)
{
    CHECK(relc_try_call(by, frame) == RELC_DONE && frame->place == entries);
    CHECK(by != session || frame->nth == own);
    entries++;
    own += by == session;
}

static void begin_sessions(relc_store *store)
{
    CHECK(relc_open_session(store, &session) == RELC_DONE);
    CHECK(relc_open_session(store, &other) == RELC_DONE);
}

/* A store of three nodes with three edges each, and a reply that the session has. */
static relc_store *open_store(void)
{
    relc_open_frame open = {.passes = 2, .limit = 1000, .seed = {1, 2}};
    relc_store *store = NULL;
    CHECK(relc_open((const uint8_t *)GRAPH, strlen(GRAPH), &open, &store) == RELC_DONE);
    begin_sessions(store);
    entries = own = 0;
    for (uint64_t node = 1; node < 4; node++) {
        for (uint64_t end = 1; end < 4; end++) {
            relc_frame put = {.op = INS, .count = 3, .values = {node, end, 10 * node}};
            call(other, &put);
        }
    }
    relc_frame read = {.op = SUCC, .count = 1, .values = {3}};
    call(session, &read);
    CHECK(read.number == 3);
    return store;
}

static void open_sessions(void)
{
    relc_close_store(open_store());
}

static void close_sessions(void)
{
    relc_close_session(session);
    relc_close_session(other);
    CHECK(memory.blocks == 0);
}

/* The edges of all nodes, as the other session reads them. */
struct edges {
    uint64_t numbers[NODES];
    uint64_t cells[NODES][32];
};

static struct edges edges_now(void)
{
    static relc_page page;
    struct edges edges = {0};
    for (uint64_t node = 0; node < NODES; node++) {
        relc_frame read = {.op = SUCC, .count = 1, .values = {node}};
        call(other, &read);
        CHECK(read.kind == RELC_ROWS && read.number <= 16);
        page.row = 0;
        CHECK(relc_rows(other, &page) == (read.number == 0 ? RELC_NO_ROW : RELC_DONE));
        CHECK(page.rows == read.number);
        edges.numbers[node] = read.number;
        memcpy(edges.cells[node], page.cells, 16 * read.number);
    }
    return edges;
}

/* ---- what is tried, step by step: what a step answers but RELC_DONE ends it */

static void ask_calls(void)
{
    for (size_t at = 0; at < COUNT; at++)
        frames[at] = CALLS[at].asked;
}

/* By these frames; where they are refused they are as before. */
static uint32_t ask(uint32_t (*export)(relc_session *, relc_frame *, size_t), relc_frame *asked,
    size_t count)
{
    static relc_frame before[COUNT];
    memcpy(before, asked, count * sizeof *asked);
    uint32_t code = export(session, asked, count);
    CHECK(code == RELC_DONE || memcmp(before, asked, count * sizeof *asked) == 0);
    return code;
}

static uint32_t call_open(relc_session *by, relc_frame *frame, size_t count)
{
    CHECK(count == 1);
    return relc_call_open(by, frame);
}

/* What ends a group is never refused, and takes no memory. */
static uint32_t end_by(uint32_t (*export)(relc_session *, relc_frame *))
{
    unsigned asked = memory.asked;
    CHECK(export(session, frames) == RELC_DONE && memory.asked == asked);
    return RELC_DONE;
}

static void check_kinds(void)
{
    for (size_t at = 0; at < COUNT; at++)
        CHECK(frames[at].kind == CALLS[at].kind);
}

static uint32_t try_group(void)
{
    ask_calls();
    uint32_t code = ask(relc_try_group, frames, COUNT);
    if (code == RELC_DONE)
        check_kinds();
    return code;
}

static uint32_t begin_group(void)
{
    ask_calls();
    uint32_t code = ask(relc_begin_group, frames, COUNT);
    if (code == RELC_DONE)
        check_kinds();
    return code;
}

/* Declares the operations of the calls with the values of their patterns, or with any. */
static uint32_t open_group(int with_any)
{
    static relc_frame declared[COUNT];
    for (size_t at = 0; at < COUNT; at++) {
        declared[at] = CALLS[at].asked;
        declared[at].count = with_any ? 0 : PATTERN[declared[at].op];
    }
    return ask(relc_open_group, declared, COUNT);
}

static uint32_t call_all(int with_any)
{
    uint32_t code = open_group(with_any);
    ask_calls();
    for (size_t at = 0; code == RELC_DONE && at < COUNT; at++)
        code = ask(call_open, &frames[at], 1);
    if (code == RELC_DONE)
        check_kinds();
    return code;
}

static uint32_t begin_and_commit(void)
{
    uint32_t code = begin_group();
    return code == RELC_DONE ? end_by(relc_commit) : code;
}

static uint32_t begin_and_cancel(void)
{
    uint32_t code = begin_group();
    return code == RELC_DONE ? end_by(relc_cancel) : code;
}

static uint32_t open_and_commit(void)
{
    uint32_t code = call_all(0);
    return code == RELC_DONE ? end_by(relc_commit) : code;
}

static uint32_t open_any_and_commit(void)
{
    uint32_t code = call_all(1);
    return code == RELC_DONE ? end_by(relc_commit) : code;
}

static uint32_t open_and_cancel(void)
{
    uint32_t code = call_all(0);
    return code == RELC_DONE ? end_by(relc_cancel) : code;
}

/* A commit of no call is a cancel. */
static uint32_t open_and_call_nothing(void)
{
    uint32_t code = open_group(0);
    if (code != RELC_DONE)
        return code;
    unsigned asked = memory.asked;
    CHECK(relc_commit(session, frames) == RELC_NO_CALL && memory.asked == asked);
    return RELC_DONE;
}

/* What is declared is to be read alone. A call that changes something isn't covered, and the group
 * is as before then; or memory is wanted for it. */
static uint32_t open_and_call_another(void)
{
    relc_frame read = {.op = NEAR, .count = 1, .values = {1}};
    uint32_t code = ask(relc_open_group, &read, 1);
    if (code != RELC_DONE)
        return code;
    relc_frame put = {.op = INS, .count = 3, .values = {1, 9, 90}};
    code = ask(call_open, &put, 1);
    if (code != RELC_UNCOVERED)
        return code;
    read = CALLS[3].asked;
    code = ask(call_open, &read, 1);
    if (code != RELC_DONE)
        return code;
    CHECK(read.kind == RELC_ROWS && read.number == 3);
    return end_by(relc_cancel);
}

/* One of the calls alone. */
static uint32_t make_alone(uint32_t (*export)(relc_session *, relc_frame *), size_t which)
{
    frames[0] = CALLS[which].asked;
    uint32_t code = export(session, frames);
    CHECK(code == RELC_DONE ? frames[0].kind == CALLS[which].kind
                            : memcmp(frames, &CALLS[which].asked, sizeof *frames) == 0);
    return code;
}

static uint32_t insert_alone(void)
{
    return make_alone(relc_try_call, 7);
}

static uint32_t remove_alone(void)
{
    return make_alone(relc_try_call, 1);
}

static uint32_t update_alone(void)
{
    return make_alone(relc_try_call, 2);
}

static uint32_t begin_one_and_commit(void)
{
    uint32_t code = make_alone(relc_begin, 7);
    return code == RELC_DONE ? end_by(relc_commit) : code;
}

static const struct trial {
    uint32_t (*run)(void);
    size_t calls; /* how many calls the entry has that it makes, 0 where it makes none */
} TRIALS[] = {
    {insert_alone, 1},
    {remove_alone, 1},
    {update_alone, 1},
    {begin_one_and_commit, 1},
    {try_group, COUNT},
    {begin_and_commit, COUNT},
    {begin_and_cancel, 0},
    {open_and_commit, COUNT},
    {open_any_and_commit, COUNT},
    {open_and_cancel, 0},
    {open_and_call_nothing, 0},
    {open_and_call_another, 0},
};
#define COUNT_OF_TRIALS (sizeof TRIALS / sizeof TRIALS[0])

/* ---- what is seen of it */

/* Nothing is prepared or open, and the session has the reply that it had before. */
static void check_idle(void)
{
    relc_frame frame = {.op = SUCC, .count = 1};
    CHECK(relc_commit(session, &frame) == RELC_NOT_PREPARED);
    CHECK(relc_cancel(session, &frame) == RELC_NOT_PREPARED);
    CHECK(relc_call_open(session, &frame) == RELC_NOT_OPEN);
    CHECK(relc_row(session, &frame) == RELC_DONE && frame.width == 2);
    CHECK(frame.cells[0] == 1 && frame.cells[1] == 30);
    frame.row = 1;
    CHECK(relc_pick(session, &frame) == RELC_NO_ROW);
}

/* All stripes are free, to be changed too, and the history has as many entries as were made. */
static void check_free(void)
{
    static relc_frame all[OPERATIONS];
    for (uint32_t op = 0; op < OPERATIONS; op++)
        all[op].op = op;
    CHECK(relc_open_group(other, all, OPERATIONS) == RELC_DONE);
    CHECK(relc_commit(other, all) == RELC_NO_CALL);
    relc_frame look = {.seen = entries};
    CHECK(relc_learn(other, &look) == RELC_DONE && look.seen == entries);
}

/* What was made stands in the history, as one, and has a reply to each of so many calls. */
static void count_entry(size_t calls)
{
    CHECK(frames[0].place == entries && frames[0].nth == own);
    entries++;
    own++;
    relc_frame pick = {.row = calls};
    CHECK(relc_pick(session, &pick) == RELC_NO_ROW);
    pick.row = 1;
    if (calls > 1) {
        relc_frame row = {.row = 0};
        CHECK(relc_pick(session, &pick) == RELC_DONE);
        CHECK(relc_row(session, &row) == RELC_DONE && row.width == 3 && row.cells[2] == 20);
    }
}

/* Runs it with the allocation of this number failing, 0 for none, and again with none where it is
 * refused. Whether any failed; and what the edges are then. */
static int run_failing(const struct trial *trial, unsigned number, int fails_on, struct edges *after)
{
    open_sessions();
    struct edges before = edges_now();
    fail(number, fails_on);
    uint32_t code = trial->run();
    int has_failed = fail_no_more() != 0;
    CHECK(code == RELC_DONE || (code == RELC_MEMORY && has_failed));
    if (code == RELC_MEMORY) {
        check_free();
        check_idle();
        struct edges now = edges_now();
        CHECK(memcmp(&before, &now, sizeof now) == 0);
        CHECK(trial->run() == RELC_DONE);
    }
    if (trial->calls > 0)
        count_entry(trial->calls);
    else
        check_idle();
    check_free();
    *after = edges_now();
    CHECK((trial->calls > 0) == (memcmp(&before, after, sizeof before) != 0));
    close_sessions();
    return has_failed;
}

/* How many of its allocations fail, each in turn. */
static unsigned test_failing(const struct trial *trial, int fails_on)
{
    struct edges wanted, after;
    CHECK(!run_failing(trial, 0, fails_on, &wanted));
    unsigned number = 1;
    while (run_failing(trial, number, fails_on, &after)) {
        CHECK(memcmp(&wanted, &after, sizeof after) == 0);
        number++;
    }
    CHECK(number > 1);
    return number - 1;
}

/* A session that is closed gives the stripes of its open group back, and takes no memory for it. */
static void test_closing(void)
{
    open_sessions();
    struct edges before = edges_now();
    CHECK(call_all(0) == RELC_DONE);
    unsigned asked = memory.asked;
    relc_close_session(session);
    CHECK(memory.asked == asked);
    session = NULL;
    check_free();
    struct edges after = edges_now();
    CHECK(memcmp(&before, &after, sizeof after) == 0);
    close_sessions();
}

/* So does one that is given back, which takes no memory either; the next one has its pass. */
static void test_giving_back(void)
{
    relc_open_frame open = {.passes = 2, .limit = 1000, .seed = {1, 2}};
    relc_store *store = NULL;
    CHECK(relc_open((const uint8_t *)GRAPH, strlen(GRAPH), &open, &store) == RELC_DONE);
    CHECK(relc_open_session(store, &session) == RELC_DONE);
    CHECK(relc_open_session(store, &other) == RELC_DONE);
    relc_frame put = CALLS[0].asked;
    CHECK(relc_begin(session, &put) == RELC_DONE);
    CHECK(relc_try_call(other, &put) == RELC_BUSY);
    unsigned asked = memory.asked;
    CHECK(relc_give_back(store, session) == RELC_DONE && memory.asked == asked);
    CHECK(relc_try_call(other, &put) == RELC_DONE && put.kind == RELC_INSERTED);
    CHECK(relc_open_session(store, &session) == RELC_DONE);
    relc_close_store(store);
    close_sessions();
}

static uint32_t resume(relc_closed *closed, relc_store **store)
{
    relc_open_frame open = {.passes = 2, .limit = 1000, .seed = {3, 4}};
    return relc_resume(closed, (const uint8_t *)GRAPH, strlen(GRAPH), (const uint8_t *)"query dst -> src", 16, NULL, 0, &open, store);
}

/* A new session of each pass finds these edges. */
static void check_edges(relc_store *store, const struct edges *wanted)
{
    begin_sessions(store);
    struct edges now = edges_now();
    CHECK(memcmp(wanted, &now, sizeof now) == 0);
    check_free();
}

static void give_back(relc_store *store)
{
    CHECK(relc_give_back(store, session) == RELC_DONE && relc_give_back(store, other) == RELC_DONE);
}

/* A store is closed with the allocation of one number failing, and goes on with that of another, 0 for none: where memory is
 * wanted, it is the store, or the closed store, that it was. Whether any failed. */
static int goes_on_failing(unsigned closing, unsigned resuming, int fails_on)
{
    relc_store *store = open_store(), *next = NULL;
    relc_closed *closed = NULL;
    struct edges before = edges_now();
    give_back(store);
    fail(closing, fails_on);
    uint32_t code = relc_close(store, &closed);
    unsigned failed = fail_no_more();
    CHECK(code == RELC_DONE || (code == RELC_MEMORY && failed != 0 && closed == NULL));
    if (code == RELC_MEMORY) {
        check_edges(store, &before);
        give_back(store);
        CHECK(relc_close(store, &closed) == RELC_DONE);
    }
    fail(resuming, fails_on);
    code = resume(closed, &next);
    failed += fail_no_more();
    CHECK(code == RELC_DONE || (code == RELC_MEMORY && failed != 0 && next == NULL));
    if (code == RELC_MEMORY)
        CHECK(resume(closed, &next) == RELC_DONE);
    check_edges(next, &before);
    relc_close_store(next);
    close_sessions();
    return failed != 0;
}

/* How many allocations of a store that is closed and goes on fail, each in turn. */
static unsigned test_going_on(int fails_on)
{
    unsigned closing = 1, resuming = 1;
    while (goes_on_failing(closing, 0, fails_on))
        closing++;
    while (goes_on_failing(0, resuming, fails_on))
        resuming++;
    CHECK(resuming > 1);
    return closing + resuming - 2;
}

int main(void)
{
    unsigned refused = 0;
    for (size_t at = 0; at < COUNT_OF_TRIALS; at++)
        refused += test_failing(&TRIALS[at], 0) + test_failing(&TRIALS[at], 1);
    test_closing();
    test_giving_back();
    refused += test_going_on(0) + test_going_on(1);
    printf("relc.h with %u allocations that fail: %zu passed, 0 failed\n", refused,
        2 * COUNT_OF_TRIALS + 4);
    return 0;
}
