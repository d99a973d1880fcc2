/* Tests librelc through relc.h: each export, each code, kind of a reply and kind of what is in the
 * way that a caller can bring about, and two threads. Prints one line and ends with 0 where all is
 * as it should be. */
#include "relc_wait.h"

#include <pthread.h>
#include <stdatomic.h>
#include <stddef.h>
#include <stdio.h>
#include <stdlib.h>
#include <string.h>
#include <time.h>

/* The sizes and places of the structs of rc_embed. The numbers are copied from them by hand, and
 * are those of sys.rs; that what a field is told comes at that place is what the tests see. */
#define LIES(kind, field, at) _Static_assert(offsetof(kind, field) == (at), #kind " " #field)
_Static_assert(sizeof(relc_open_frame) == 104, "OpenFrame");
LIES(relc_open_frame, passes, 0);
LIES(relc_open_frame, length, 4);
LIES(relc_open_frame, limit, 8);
LIES(relc_open_frame, rows, 16);
LIES(relc_open_frame, seed, 24);
LIES(relc_open_frame, refusal, 40);
_Static_assert(sizeof(relc_operation_frame) == 144, "OperationFrame");
LIES(relc_operation_frame, length, 0);
LIES(relc_operation_frame, op, 4);
LIES(relc_operation_frame, kind, 8);
LIES(relc_operation_frame, count, 12);
LIES(relc_operation_frame, width, 16);
LIES(relc_operation_frame, name, 24);
LIES(relc_operation_frame, columns, 40);
LIES(relc_operation_frame, pattern_count, 104);
LIES(relc_operation_frame, pattern, 112);
_Static_assert(sizeof(relc_frame) == 840, "Frame");
LIES(relc_frame, op, 0);
LIES(relc_frame, count, 4);
LIES(relc_frame, values, 8);
LIES(relc_frame, kind, 520);
LIES(relc_frame, found, 524);
LIES(relc_frame, stripe, 528);
LIES(relc_frame, who, 532);
LIES(relc_frame, number, 536);
LIES(relc_frame, place, 544);
LIES(relc_frame, nth, 552);
LIES(relc_frame, seen, 560);
LIES(relc_frame, row, 568);
LIES(relc_frame, width, 576);
LIES(relc_frame, cells, 584);
_Static_assert(sizeof(relc_page) == 8208, "Page");
LIES(relc_page, row, 0);
LIES(relc_page, rows, 8);
LIES(relc_page, cells, 16);

#define CHECK(what)                                                        \
    do {                                                                   \
        if (!(what)) {                                                     \
            fprintf(stderr, "%s:%d: %s\n", __FILE__, __LINE__, #what);     \
            exit(1);                                                       \
        }                                                                  \
    } while (0)

static const char GRAPH[] =
    "relc 1\ncol src num\ncol dst num\ncol weight num\nfd src dst -> weight\n"
    "node root\nnode u src\nnode w src dst\nnode z src dst weight\n"
    "edge e1 root u hash src\nedge e2 u w ordered dst\nedge e3 w z singleton weight\n"
    "lock k1 8 src\nlock k2 4 src\nplace e1 k1\nplace e2 k2\nplace e3 k2\n"
    "op ins insert src dst\nop del remove src dst\nop succ query src -> dst weight\nend\n";

/* the graph with an update of a weight and a query for the targets in a range */
static const char GRAPH2[] =
    "relc 2\ncol src num\ncol dst num\ncol weight num\nfd src dst -> weight\n"
    "node root\nnode u src\nnode w src dst\nnode z src dst weight\n"
    "edge e1 root u hash src\nedge e2 u w ordered dst\nedge e3 w z singleton weight\n"
    "lock k1 8 src\nlock k2 4 src\nplace e1 k1\nplace e2 k2\nplace e3 k2\n"
    "op ins insert src dst\nop set update src dst\nop near query src : dst -> dst weight\nend\n";

/* pairs, each value of which is in one */
static const char PAIRS[] =
    "relc 1\ncol left num\ncol right num\nfd left -> right\nfd right -> left\n"
    "node root\nnode p left right\nedge e1 root p hash left\nedge e2 root p hash right\n"
    "lock k1 4 left\nlock k2 4 right\nplace e1 k1\nplace e2 k2\n"
    "op pair insert left\nend\n";

static relc_store *opened_for(const char *text, uint32_t passes, uint64_t limit, uint64_t rows)
{
    relc_open_frame frame = {
        .passes = passes, .limit = limit, .rows = rows, .seed = {passes, limit}};
    relc_store *store = NULL;
    CHECK(relc_open((const uint8_t *)text, strlen(text), &frame, &store) == RELC_DONE);
    return store;
}

static relc_store *opened_by(const char *text, uint32_t passes, uint64_t limit)
{
    return opened_for(text, passes, limit, 0);
}

static relc_store *opened(uint32_t passes, uint64_t limit)
{
    return opened_by(GRAPH, passes, limit);
}

static relc_session *session_of(relc_store *store)
{
    relc_session *session = NULL;
    CHECK(relc_open_session(store, &session) == RELC_DONE && session != NULL);
    return session;
}

static uint32_t refused(const char *text, uint32_t passes, const char *refusal)
{
    relc_open_frame frame = {.passes = passes, .limit = 1};
    relc_store *store = NULL;
    uint32_t code = relc_open((const uint8_t *)text, strlen(text), &frame, &store);
    CHECK(code != RELC_DONE && frame.length == strlen(refusal));
    CHECK(memcmp(frame.refusal, refusal, frame.length) == 0);
    const char *why = relc_rule_text(&frame);
    CHECK((why != NULL) == (*refusal != 0));
    CHECK(why == NULL || strlen(why) > 100);
    return code;
}

static relc_operation_frame operation(relc_store *store, const char *name)
{
    relc_operation_frame frame = {.length = (uint32_t)strlen(name)};
    memcpy(frame.name, name, frame.length);
    CHECK(relc_operation(store, &frame) == RELC_DONE);
    return frame;
}

/* sets what is asked: an operation, and `count` values */
static void ask(relc_frame *frame, uint32_t op, uint32_t count, uint64_t a, uint64_t b, uint64_t c)
{
    frame->op = op;
    frame->count = count;
    frame->values[0] = a;
    frame->values[1] = b;
    frame->values[2] = c;
}

static void test_opening(void)
{
    char *wrong = strdup(GRAPH);
    memcpy(strstr(wrong, "lock k2 4 src"), "lock k2 4 dst", 13);
    relc_open_frame told = {0};
    CHECK(relc_rule_text(&told) == NULL);
    CHECK(strcmp(relc_code_text(RELC_DONE), "done") == 0);
    for (uint32_t code = RELC_MEMORY; code <= RELC_SHARED; code++)
        CHECK(strcmp(relc_code_text(code), relc_code_text(RELC_SHARED + 1)) != 0);
    CHECK(refused("relc 3\n", 1, "refused S1 line 1") == RELC_LINE);
    CHECK(refused(wrong, 1, "refused P5 edge e2") == RELC_RULE);
    CHECK(refused(GRAPH, 0, "") == RELC_OPTIONS);
    CHECK(refused(GRAPH, 256, "") == RELC_OPTIONS);
    relc_open_frame idle = {.passes = 1, .limit = 0};
    relc_store *none = NULL;
    CHECK(relc_open((const uint8_t *)GRAPH, strlen(GRAPH), &idle, &none) == RELC_OPTIONS);
    CHECK(none == NULL);
    relc_open_frame many = {.passes = 1, .limit = 1, .rows = (uint64_t)1 << 32};
    CHECK(relc_open((const uint8_t *)GRAPH, strlen(GRAPH), &many, &none) == RELC_OPTIONS);
    CHECK(none == NULL);
    free(wrong);
    char *blank = malloc((1 << 24) + 2);
    memset(blank, '\n', (1 << 24) + 1);
    blank[(1 << 24) + 1] = 0;
    CHECK(refused(blank, 1, "") == RELC_TOO_LONG);
    free(blank);
}

static void test_calls(void)
{
    relc_store *store = opened(1, 6);
    relc_session *session = NULL, *other = NULL;
    CHECK(relc_open_session(store, &session) == RELC_DONE);
    CHECK(relc_open_session(store, &other) == RELC_NONE_LEFT);
    relc_operation_frame ins = operation(store, "ins"), del = operation(store, "del");
    relc_operation_frame succ = operation(store, "succ");
    CHECK(ins.kind == 1 && ins.count == 3 && del.kind == 2 && del.count == 2 && del.width == 3);
    CHECK(succ.kind == 0 && succ.count == 1 && succ.width == 2 && succ.columns[0] == 0);
    CHECK(ins.columns[0] == 0 && ins.columns[1] == 1 && ins.columns[2] == 2);
    CHECK(ins.pattern_count == 2 && ins.pattern[0] == 0 && ins.pattern[1] == 1);
    CHECK(del.pattern_count == 2 && succ.pattern_count == 1 && succ.pattern[0] == 0);
    relc_operation_frame none = {.length = 3, .name = "put"};
    CHECK(relc_operation(store, &none) == RELC_OPERATION);
    none.length = 17;
    CHECK(relc_operation(store, &none) == RELC_OPERATION);

    relc_frame frame = {0};
    CHECK(relc_row(session, &frame) == RELC_NO_ROW);
    ask(&frame, 99, 1, 1, 0, 0);
    CHECK(relc_try_call(session, &frame) == RELC_OPERATION);
    ask(&frame, ins.op, 2, 1, 2, 0);
    CHECK(relc_try_call(session, &frame) == RELC_VALUE_COUNT);
    frame.count = 1000000;
    CHECK(relc_try_call(session, &frame) == RELC_VALUE_COUNT);
    ask(&frame, ins.op, 3, 1, 2, 10);
    CHECK(relc_try_call(session, &frame) == RELC_DONE && frame.kind == RELC_INSERTED);
    CHECK(frame.place == 0 && frame.nth == 0);
    CHECK(relc_try_call(session, &frame) == RELC_DONE && frame.kind == RELC_PRESENT);
    CHECK(frame.place == 1 && frame.nth == 1);
    ask(&frame, ins.op, 3, 1, 1, 7);
    CHECK(relc_commit(session, &frame) == RELC_NOT_PREPARED);
    CHECK(relc_cancel(session, &frame) == RELC_NOT_PREPARED);
    CHECK(relc_begin(session, &frame) == RELC_DONE && frame.kind == RELC_INSERTED);
    CHECK(relc_begin(session, &frame) == RELC_PREPARED);
    CHECK(relc_try_call(session, &frame) == RELC_PREPARED);
    frame.count = 33;
    CHECK(relc_try_call(session, &frame) == RELC_PREPARED);
    frame.count = 3;
    CHECK(relc_learn(session, &frame) == RELC_PREPARED);
    CHECK(relc_cancel(session, &frame) == RELC_DONE);
    CHECK(relc_begin(session, &frame) == RELC_DONE);
    CHECK(relc_commit(session, &frame) == RELC_DONE && frame.place == 2);
    ask(&frame, succ.op, 1, 1, 0, 0);
    CHECK(relc_try_call(session, &frame) == RELC_DONE);
    CHECK(frame.kind == RELC_ROWS && frame.number == 2);
    static const uint64_t rows[2][2] = {{1, 7}, {2, 10}};
    for (frame.row = 0; frame.row < 2; frame.row++) {
        CHECK(relc_row(session, &frame) == RELC_DONE && frame.width == 2);
        CHECK(memcmp(frame.cells, rows[frame.row], sizeof rows[0]) == 0);
    }
    CHECK(relc_row(session, &frame) == RELC_NO_ROW);
    ask(&frame, del.op, 2, 1, 2, 0);
    frame.row = 0;
    CHECK(relc_try_call(session, &frame) == RELC_DONE);
    CHECK(frame.kind == RELC_REMOVED && frame.number == 1);
    CHECK(relc_row(session, &frame) == RELC_DONE && frame.width == 3 && frame.cells[2] == 10);
    CHECK(relc_try_call(session, &frame) == RELC_DONE && frame.kind == RELC_ABSENT);
    CHECK(relc_try_call(session, &frame) == RELC_SPENT);
    frame.seen = 6;
    CHECK(relc_learn(session, &frame) == RELC_DONE && frame.seen == 6);
    frame.seen = 7;
    CHECK(relc_learn(session, &frame) == RELC_UNSEEN);
    relc_close_store(store);
    relc_close_session(session);
}

/* One session tells another one what it was told of, but not while something is prepared. */
static void test_tell(void)
{
    relc_store *store = opened(2, 1ull << 48);
    relc_session *one = NULL, *other = NULL;
    CHECK(relc_open_session(store, &one) == RELC_DONE && relc_open_session(store, &other) == RELC_DONE);
    relc_operation_frame ins = operation(store, "ins");
    relc_frame frame = {0};
    ask(&frame, ins.op, 3, 1, 2, 10);
    CHECK(relc_try_call(one, &frame) == RELC_DONE && frame.place == 0);
    CHECK(relc_begin(one, &frame) == RELC_DONE);
    CHECK(relc_tell(one, other) == RELC_PREPARED && relc_tell(other, one) == RELC_PREPARED);
    CHECK(relc_cancel(one, &frame) == RELC_DONE);
    CHECK(relc_tell(one, other) == RELC_DONE);
    CHECK(relc_try_call(other, &frame) == RELC_DONE && frame.kind == RELC_PRESENT && frame.place == 1);
    CHECK(relc_tell(other, one) == RELC_DONE);
    relc_close_session(other);
    relc_close_session(one);
    relc_close_store(store);
}

/* The kinds of a reply that the one above doesn't have. */
static void test_many_and_conflicts(void)
{
    relc_store *store = opened_for(GRAPH, 1, 300, 256);
    relc_session *session = session_of(store);
    uint32_t ins = operation(store, "ins").op, succ = operation(store, "succ").op;
    relc_close_store(store);
    relc_frame frame = {0};
    for (uint64_t end = 0; end < 257; end++) {
        ask(&frame, ins, 3, 1, end, 0);
        CHECK(relc_try_call(session, &frame) == RELC_DONE && frame.kind == RELC_INSERTED);
    }
    ask(&frame, succ, 1, 1, 0, 0);
    CHECK(relc_try_call(session, &frame) == RELC_DONE);
    CHECK(frame.kind == RELC_MANY && frame.number == 257 && frame.place == 257);
    CHECK(relc_row(session, &frame) == RELC_NO_ROW);
    relc_close_session(session);

    store = opened_by(PAIRS, 1, 2);
    session = session_of(store);
    relc_close_store(store);
    ask(&frame, 0, 2, 5, 6, 0);
    CHECK(relc_try_call(session, &frame) == RELC_DONE && frame.kind == RELC_INSERTED);
    ask(&frame, 0, 2, 7, 6, 0);
    CHECK(relc_try_call(session, &frame) == RELC_DONE);
    CHECK(frame.kind == RELC_CONFLICT && frame.number == 2 && frame.nth == 1);
    relc_close_session(session);
}

/* A reply of more rows than a page has room for, page by page. */
static void test_pages(void)
{
    relc_store *store = opened(1, 700);
    relc_session *session = session_of(store);
    uint32_t ins = operation(store, "ins").op, succ = operation(store, "succ").op;
    relc_close_store(store);
    relc_frame frame = {0};
    static relc_page page;
    CHECK(relc_rows(session, &page) == RELC_NO_ROW && page.rows == 0);
    for (uint64_t end = 0; end < 600; end++) {
        ask(&frame, ins, 3, 1, end, 1000 + end);
        CHECK(relc_try_call(session, &frame) == RELC_DONE && frame.kind == RELC_INSERTED);
    }
    ask(&frame, succ, 1, 1, 0, 0);
    CHECK(relc_try_call(session, &frame) == RELC_DONE);
    CHECK(frame.kind == RELC_ROWS && frame.number == 600);
    uint64_t row = 0;
    for (page.row = 0; page.row < frame.number; page.row += page.rows) {
        CHECK(relc_rows(session, &page) == RELC_DONE);
        CHECK(page.rows == (page.row == 0 ? 512 : 88));
        for (uint64_t at = 0; at < page.rows; at++, row++)
            CHECK(page.cells[2 * at] == row && page.cells[2 * at + 1] == 1000 + row);
    }
    CHECK(row == 600 && page.cells[2 * 88] == 88); /* behind the rows the cells are as before */
    CHECK(relc_rows(session, &page) == RELC_NO_ROW && page.rows == 0);
    relc_close_session(session);
}

/* Updates, and queries with ranges. */
static void test_version_two(void)
{
    relc_store *store = opened_by(GRAPH2, 1, 20);
    relc_session *session = session_of(store);
    relc_operation_frame set = operation(store, "set"), near = operation(store, "near");
    uint32_t ins = operation(store, "ins").op;
    relc_close_store(store);
    CHECK(set.kind == 3 && set.count == 3 && set.width == 3);
    CHECK(near.kind == 0 && near.count == 3 && near.width == 2);
    CHECK(near.columns[0] == 0 && near.columns[1] == 1 && near.columns[2] == 1);
    relc_frame frame = {0};
    for (uint64_t end = 1; end < 6; end++) {
        ask(&frame, ins, 3, 1, end, 10 * end);
        CHECK(relc_try_call(session, &frame) == RELC_DONE && frame.kind == RELC_INSERTED);
    }
    ask(&frame, set.op, 3, 1, 2, 21);
    CHECK(relc_try_call(session, &frame) == RELC_DONE);
    CHECK(frame.kind == RELC_UPDATED && frame.number == 1);
    frame.row = 0;
    CHECK(relc_row(session, &frame) == RELC_DONE && frame.width == 3 && frame.cells[2] == 20);
    ask(&frame, set.op, 3, 2, 2, 21);
    CHECK(relc_try_call(session, &frame) == RELC_DONE && frame.kind == RELC_ABSENT);
    ask(&frame, near.op, 3, 1, 2, 3);
    CHECK(relc_try_call(session, &frame) == RELC_DONE);
    CHECK(frame.kind == RELC_ROWS && frame.number == 2);
    static relc_page page;
    static const uint64_t cells[4] = {2, 21, 3, 30};
    CHECK(relc_rows(session, &page) == RELC_DONE && page.rows == 2);
    CHECK(memcmp(page.cells, cells, sizeof cells) == 0);
    ask(&frame, near.op, 3, 1, 4, 3);
    CHECK(relc_try_call(session, &frame) == RELC_DONE);
    CHECK(frame.kind == RELC_ROWS && frame.number == 0);
    frame.count = 1;
    CHECK(relc_try_call(session, &frame) == RELC_VALUE_COUNT);
    relc_close_session(session);
}

/* adds the columns from this one on to a text */
static void add_columns(char *text, int from)
{
    for (int at = from; at < 32; at++)
        sprintf(text + strlen(text), " c%d", at);
}

/* A relation of 32 columns, with queries that take 33, 63 and 64 values: a pattern and bounds. */
static relc_store *opened_wide(void)
{
    char text[2048] = "relc 2\n";
    for (int at = 0; at < 32; at++)
        sprintf(text + strlen(text), "col c%d num\n", at);
    strcat(text, "fd c0 ->");
    add_columns(text, 1);
    strcat(text, "\nnode root\nnode x");
    add_columns(text, 0);
    strcat(text, "\nedge e root x hash c0\nlock k 4 c0\nplace e k\nop add insert c0\nop put update c0");
    strcat(text, "\nop half query c0 :");
    add_columns(text, 16);
    strcat(text, " -> c1\nop near query c0 :");
    add_columns(text, 1);
    strcat(text, " ->");
    add_columns(text, 0);
    strcat(text, "\nop all query :");
    add_columns(text, 0);
    strcat(text, " -> c0\nend\n");
    return opened_by(text, 1, 20);
}

/* sets the bounds of the columns from this one on, behind a pattern or not: of each the values of
 * the tuples that begin with `low` and with `high` */
static void ask_between(relc_frame *frame, int from, int at, uint64_t low, uint64_t high)
{
    for (int column = from; column < 32; column++) {
        frame->values[at++] = low + (uint64_t)column;
        frame->values[at++] = high + (uint64_t)column;
    }
}

static uint64_t rows_of(relc_session *session, relc_frame *frame)
{
    CHECK(relc_try_call(session, frame) == RELC_DONE && frame->kind == RELC_ROWS);
    return frame->number;
}

/* Each value of a frame counts, the last too. */
static void test_wide(void)
{
    relc_store *store = opened_wide();
    relc_session *session = session_of(store);
    relc_operation_frame half = operation(store, "half"), near = operation(store, "near");
    relc_operation_frame all = operation(store, "all");
    uint32_t add = operation(store, "add").op, put = operation(store, "put").op;
    relc_close_store(store);
    CHECK(half.count == 33 && half.width == 1 && near.count == 63 && near.width == 32);
    CHECK(all.count == 64 && all.width == 1);
    for (int at = 0; at < 64; at++)
        CHECK(all.columns[at] == at / 2 && (at == 63 || near.columns[at] == (at + 1) / 2));
    CHECK(half.columns[0] == 0 && half.columns[1] == 16 && half.columns[32] == 31);

    relc_frame frame = {.op = add, .count = 32};
    for (uint64_t first = 100; first < 300; first += 100) {
        for (uint64_t at = 0; at < 32; at++)
            frame.values[at] = first + at;
        CHECK(relc_try_call(session, &frame) == RELC_DONE && frame.kind == RELC_INSERTED);
    }

    ask(&frame, near.op, 63, 100, 0, 0);
    ask_between(&frame, 1, 1, 100, 100);
    frame.row = 0;
    CHECK(rows_of(session, &frame) == 1 && relc_row(session, &frame) == RELC_DONE);
    for (uint64_t at = 0; at < 32; at++)
        CHECK(frame.width == 32 && frame.cells[at] == 100 + at);
    frame.values[62] = 130; /* the greatest value of c31, which is 131 */
    CHECK(rows_of(session, &frame) == 0);

    ask(&frame, half.op, 33, 200, 0, 0);
    ask_between(&frame, 16, 1, 150, 250);
    CHECK(rows_of(session, &frame) == 1);
    frame.values[31] = 232; /* the least value of c31, which is 231 */
    CHECK(rows_of(session, &frame) == 0);

    ask(&frame, all.op, 64, 0, 0, 0);
    ask_between(&frame, 0, 0, 100, 200);
    CHECK(rows_of(session, &frame) == 2);
    frame.values[63] = 230;
    CHECK(rows_of(session, &frame) == 1 && relc_row(session, &frame) == RELC_DONE);
    CHECK(frame.cells[0] == 100);
    frame.values[62] = 132;
    frame.values[63] = 231;
    CHECK(rows_of(session, &frame) == 1 && relc_row(session, &frame) == RELC_DONE);
    CHECK(frame.cells[0] == 200);

    frame.op = put;
    frame.count = 32;
    for (uint64_t at = 0; at < 32; at++)
        frame.values[at] = at == 31 ? 7 : 200 + at;
    CHECK(relc_try_call(session, &frame) == RELC_DONE && frame.kind == RELC_UPDATED);
    CHECK(relc_row(session, &frame) == RELC_DONE && frame.width == 32 && frame.cells[31] == 231);
    frame.count = 64;
    CHECK(relc_try_call(session, &frame) == RELC_VALUE_COUNT);
    relc_close_session(session);
}

/* Two sessions read a stripe, and a third one wants to write it; then it writes, and one of the two
 * wants to read. The stripe has another number than any kind of what is found. */
static void test_busy(void)
{
    relc_store *store = opened(3, 2);
    relc_session *one = session_of(store), *two = session_of(store), *three = session_of(store);
    uint32_t ins = operation(store, "ins").op, succ = operation(store, "succ").op;
    relc_close_store(store);
    relc_frame read = {0}, write = {.stripe = 99, .found = 99, .who = 99};
    for (uint64_t node = 1; write.stripe < 3 || write.stripe == 99; node++) {
        CHECK(node < 100); /* nodes are on several stripes */
        ask(&read, succ, 1, node, 0, 0);
        CHECK(relc_begin(one, &read) == RELC_DONE && relc_begin(two, &read) == RELC_DONE);
        ask(&write, ins, 3, node, 2, 10);
        CHECK(relc_try_call(three, &write) == RELC_BUSY);
        CHECK(write.stripe < 8 && write.found == RELC_READERS && write.who == 2);
        CHECK(relc_cancel(one, &read) == RELC_DONE && relc_cancel(two, &read) == RELC_DONE);
    }
    CHECK(relc_begin(three, &write) == RELC_DONE);
    read.stripe = read.found = read.who = 99;
    CHECK(relc_try_call(one, &read) == RELC_BUSY);
    CHECK(read.stripe == write.stripe && read.found == RELC_WRITER && read.who == 2);
    CHECK(relc_cancel(three, &write) == RELC_DONE);
    CHECK(relc_try_call(one, &read) == RELC_DONE && read.kind == RELC_ROWS && read.number == 0);
    CHECK(relc_begin(three, &write) == RELC_DONE);
    relc_close_session(three); /* cancels */
    CHECK(relc_try_call(two, &read) == RELC_DONE && read.kind == RELC_ROWS && read.number == 0);
    relc_close_session(one);
    relc_close_session(two);
}

/* A call that puts an edge of node 1 in, one that takes it out, and one that asks for node 1's. */
static void ask_all(relc_store *store, relc_frame frames[3], uint64_t end, uint64_t weight)
{
    ask(&frames[0], operation(store, "ins").op, 3, 1, end, weight);
    ask(&frames[1], operation(store, "del").op, 2, 1, end, 0);
    ask(&frames[2], operation(store, "succ").op, 1, 1, 0, 0);
}

static void test_groups_are_refused(void)
{
    relc_store *store = opened(1, 1);
    relc_session *session = session_of(store);
    static relc_frame frames[RELC_GROUP + 1];
    for (int at = 0; at + 3 <= RELC_GROUP; at += 3)
        ask_all(store, frames + at, 2, 10);
    ask(&frames[15], frames[2].op, 1, 1, 0, 0);
    ask(&frames[16], frames[2].op, 1, 1, 0, 0);
    relc_close_store(store);
    CHECK(relc_try_group(session, frames, 0) == RELC_COUNT);
    CHECK(relc_try_group(session, frames, RELC_GROUP + 1) == RELC_COUNT);
    CHECK(relc_begin_group(session, frames, 0) == RELC_COUNT);
    frames[1].count = 3;
    frames[2].op = 99;
    CHECK(relc_try_group(session, frames, 3) == RELC_VALUE_COUNT);
    CHECK(relc_begin_group(session, frames, RELC_GROUP) == RELC_VALUE_COUNT);
    frames[1].count = 1000000;
    CHECK(relc_try_group(session, frames, 3) == RELC_VALUE_COUNT);
    frames[1].count = 2;
    CHECK(relc_try_group(session, frames, 3) == RELC_OPERATION);
    frames[2].op = frames[5].op;
    CHECK(relc_pick(session, frames) == RELC_NO_ROW);
    CHECK(relc_begin_group(session, frames, RELC_GROUP) == RELC_DONE);
    CHECK(relc_begin_group(session, frames, 0) == RELC_PREPARED);
    CHECK(relc_try_group(session, frames, 3) == RELC_PREPARED);
    CHECK(relc_try_call(session, frames) == RELC_PREPARED);
    CHECK(relc_commit(session, frames) == RELC_DONE && frames[0].place == 0);
    CHECK(relc_commit(session, frames) == RELC_NOT_PREPARED);
    CHECK(relc_try_group(session, frames, 3) == RELC_SPENT);
    frames[0].op = 99;
    CHECK(relc_try_group(session, frames, 3) == RELC_OPERATION);
    relc_close_session(session);
}

/* Each call of a group goes on from what those before it left, and others see none of it, or all. */
static void test_groups(void)
{
    relc_store *store = opened(2, 6);
    relc_session *session = session_of(store), *other = session_of(store);
    relc_frame frames[3] = {0}, read = {0};
    ask_all(store, frames, 2, 10);
    ask(&read, frames[2].op, 1, 1, 0, 0);
    relc_close_store(store);
    CHECK(relc_try_group(session, frames, 3) == RELC_DONE);
    CHECK(frames[0].kind == RELC_INSERTED && frames[1].kind == RELC_REMOVED);
    CHECK(frames[1].number == 1 && frames[2].kind == RELC_ROWS && frames[2].number == 0);
    for (int at = 0; at < 3; at++)
        CHECK(frames[at].place == 0 && frames[at].nth == 0);
    CHECK(relc_row(session, frames) == RELC_NO_ROW);
    frames[0].row = 1;
    CHECK(relc_pick(session, frames) == RELC_DONE);
    frames[0].row = 3;
    CHECK(relc_pick(session, frames) == RELC_NO_ROW);
    frames[0].row = 0;
    CHECK(relc_row(session, frames) == RELC_DONE && frames[0].width == 3 && frames[0].cells[2] == 10);

    /* two of them: what is put in stays */
    frames[1] = frames[2];
    CHECK(relc_begin_group(session, frames, 2) == RELC_DONE);
    CHECK(frames[0].kind == RELC_INSERTED && frames[1].kind == RELC_ROWS && frames[1].number == 1);
    CHECK(relc_row(session, frames) == RELC_NO_ROW); /* the first is picked again */
    frames[0].row = 1;
    CHECK(relc_pick(session, frames) == RELC_DONE);
    frames[0].row = 0;
    CHECK(relc_row(session, frames) == RELC_DONE && frames[0].width == 2 && frames[0].cells[1] == 10);
    read.stripe = read.found = read.who = 99;
    CHECK(relc_try_call(other, &read) == RELC_BUSY && read.stripe < 12);
    CHECK(read.found == RELC_WRITER && read.who == 0);
    CHECK(relc_cancel(session, frames) == RELC_DONE);
    CHECK(relc_try_call(other, &read) == RELC_DONE && read.number == 0 && read.place == 1);
    CHECK(relc_begin_group(session, frames, 2) == RELC_DONE);
    frames[0].kind = 99;
    CHECK(relc_commit(session, frames) == RELC_DONE && frames[0].kind == RELC_INSERTED);
    CHECK(frames[0].place == 2 && frames[0].nth == 1);
    CHECK(relc_try_call(other, &read) == RELC_DONE && read.number == 1);

    /* what is in the way is told to the first; a reply that changes nothing is no refusal */
    CHECK(relc_begin(other, &read) == RELC_DONE);
    frames[0].stripe = frames[1].stripe = frames[0].found = 99;
    CHECK(relc_try_group(session, frames, 2) == RELC_BUSY);
    CHECK(frames[0].stripe < 12 && frames[0].found == RELC_READERS && frames[0].who == 1);
    CHECK(frames[1].stripe == 99);
    CHECK(relc_cancel(other, &read) == RELC_DONE);
    CHECK(relc_try_group(session, frames, 2) == RELC_DONE);
    CHECK(frames[0].kind == RELC_PRESENT && frames[1].number == 1);
    /* one call is a group too */
    CHECK(relc_try_group(session, frames + 1, 1) == RELC_DONE && frames[1].number == 1);
    CHECK(relc_begin_group(session, frames, 2) == RELC_DONE);
    relc_close_session(session); /* cancels */
    CHECK(relc_try_call(other, &read) == RELC_DONE && read.number == 1);
    relc_close_session(other);
}

/* What an open group may call is declared, and what isn't covered is refused; nobody sees its calls before
 * they are committed. */
static void test_open_groups(void)
{
    relc_store *store = opened(2, 2);
    relc_session *session = session_of(store), *other = session_of(store);
    static relc_frame declared[RELC_GROUP + 1];
    relc_frame frames[3] = {0}, read = {0};
    ask_all(store, frames, 2, 10);
    ask(&read, frames[2].op, 1, 1, 0, 0);
    relc_close_store(store);
    CHECK(relc_call_open(session, frames) == RELC_NOT_OPEN);
    CHECK(relc_open_group(session, declared, 0) == RELC_COUNT);
    CHECK(relc_open_group(session, declared, RELC_GROUP + 1) == RELC_COUNT);
    /* an insert is declared by its pattern, which is source and target, and not by its tuple */
    ask(&declared[0], frames[0].op, 3, 1, 2, 10);
    CHECK(relc_open_group(session, declared, 1) == RELC_VALUE_COUNT);
    declared[0].count = 1000000;
    CHECK(relc_open_group(session, declared, 1) == RELC_VALUE_COUNT);
    declared[0].count = 2;
    ask(&declared[1], 99, 0, 0, 0, 0);
    CHECK(relc_open_group(session, declared, 2) == RELC_OPERATION);
    ask(&declared[1], frames[1].op, 2, 1, 2, 0);

    CHECK(relc_open_group(session, declared, 2) == RELC_DONE);
    CHECK(relc_open_group(session, declared, 0) == RELC_PREPARED);
    CHECK(relc_try_call(session, frames) == RELC_PREPARED);
    /* a commit of no call is a cancel: the stripes are free again, and the frame is as before */
    frames[0].kind = frames[0].place = 99;
    CHECK(relc_commit(session, frames) == RELC_NO_CALL);
    CHECK(frames[0].kind == 99 && frames[0].place == 99);
    CHECK(relc_commit(session, frames) == RELC_NOT_PREPARED);
    CHECK(relc_call_open(session, frames) == RELC_NOT_OPEN);
    CHECK(relc_begin(other, &read) == RELC_DONE && relc_cancel(other, &read) == RELC_DONE);
    CHECK(relc_open_group(session, declared, 2) == RELC_DONE);
    CHECK(relc_row(session, frames) == RELC_NO_ROW);
    read.stripe = read.found = read.who = 99;
    CHECK(relc_try_call(other, &read) == RELC_BUSY && read.stripe < 12);
    CHECK(read.found == RELC_WRITER && read.who == 0);
    CHECK(relc_call_open(session, &frames[0]) == RELC_DONE && frames[0].kind == RELC_INSERTED);
    CHECK(relc_call_open(session, &frames[2]) == RELC_DONE && frames[2].number == 1);
    CHECK(relc_row(session, frames) == RELC_DONE && frames[0].width == 2 && frames[0].cells[1] == 10);
    CHECK(relc_call_open(session, &frames[1]) == RELC_DONE && frames[1].kind == RELC_REMOVED);
    CHECK(relc_row(session, frames) == RELC_DONE && frames[0].width == 3 && frames[0].cells[2] == 10);
    uint64_t calls = 3;
    frames[0].row = calls;
    CHECK(relc_pick(session, frames) == RELC_NO_ROW);
    /* a node whose stripes are others than those of node 1 */
    relc_frame far = {0};
    for (uint64_t node = 2;; node++) {
        ask(&far, read.op, 1, node, 0, 0);
        uint32_t code = relc_call_open(session, &far);
        if (code == RELC_UNCOVERED)
            break;
        CHECK(code == RELC_DONE && far.number == 0 && ++calls < RELC_GROUP);
    }
    frames[0].row = 1;
    CHECK(relc_pick(session, frames) == RELC_DONE);
    CHECK(relc_call_open(session, &far) == RELC_UNCOVERED);
    far.count = 2;
    CHECK(relc_call_open(session, &far) == RELC_VALUE_COUNT);
    far.op = 99;
    CHECK(relc_call_open(session, &far) == RELC_OPERATION);
    frames[0].row = 0;
    CHECK(relc_row(session, frames) == RELC_DONE && frames[0].width == 2);
    for (; calls < RELC_GROUP; calls++)
        CHECK(relc_call_open(session, &frames[2]) == RELC_DONE && frames[2].number == 0);
    CHECK(relc_call_open(session, &frames[2]) == RELC_COUNT);
    CHECK(relc_cancel(session, frames) == RELC_DONE);
    CHECK(relc_cancel(session, frames) == RELC_NOT_PREPARED);
    CHECK(relc_try_call(other, &read) == RELC_DONE && read.number == 0 && read.place == 0);

    /* with no values any may be called */
    for (int at = 0; at < 2; at++)
        declared[at].count = 0;
    CHECK(relc_open_group(session, declared, 2) == RELC_DONE);
    CHECK(relc_call_open(session, &frames[0]) == RELC_DONE);
    frames[0].values[0] = 4;
    CHECK(relc_call_open(session, &frames[0]) == RELC_DONE);
    frames[2].kind = 99;
    CHECK(relc_commit(session, &frames[2]) == RELC_DONE && frames[2].kind == RELC_INSERTED);
    CHECK(frames[2].place == 1 && frames[2].nth == 0);
    CHECK(relc_call_open(session, frames) == RELC_NOT_OPEN);
    CHECK(relc_try_call(other, &read) == RELC_DONE && read.number == 1 && read.place == 2);
    CHECK(relc_open_group(session, declared, 1) == RELC_DONE);
    CHECK(relc_call_open(session, frames) == RELC_DONE && frames[0].kind == RELC_PRESENT);
    CHECK(relc_commit(session, frames) == RELC_DONE && frames[0].place == 3);
    CHECK(relc_open_group(session, declared, 1) == RELC_SPENT);
    relc_close_session(session);
    relc_close_session(other);
}

/* One of two sessions is given back and opened again, 300 times: its calls count on, up to the limit, and
 * what it had prepared or opened is cancelled. */
static void test_giving_back(void)
{
    enum { TIMES = 300 };
    relc_store *store = opened(2, TIMES);
    relc_session *kept = session_of(store), *session = NULL, *none = NULL;
    uint32_t ins = operation(store, "ins").op, succ = operation(store, "succ").op;
    relc_frame read = {0}, frame = {0};
    ask(&read, succ, 1, 1, 0, 0);
    for (uint64_t time = 0; time < TIMES; time++) {
        session = session_of(store);
        CHECK(relc_open_session(store, &none) == RELC_NONE_LEFT);
        ask(&frame, ins, 3, 1, time, 7);
        CHECK(relc_try_call(session, &frame) == RELC_DONE && frame.kind == RELC_INSERTED);
        CHECK(frame.nth == time && frame.place == 2 * time);
        if (time + 1 < TIMES) { /* else it is spent */
            ask(&frame, ins, time % 2 == 0 ? 3 : 2, 1, TIMES + time, 7);
            CHECK((time % 2 == 0 ? relc_begin(session, &frame)
                                 : relc_open_group(session, &frame, 1)) == RELC_DONE);
            CHECK(relc_try_call(kept, &read) == RELC_BUSY && read.found == RELC_WRITER);
            CHECK(read.who == 1);
        }
        CHECK(relc_give_back(store, session) == RELC_DONE);
        CHECK(relc_try_call(kept, &read) == RELC_DONE && read.number == time + 1);
    }
    session = session_of(store);
    CHECK(relc_try_call(session, &frame) == RELC_SPENT);
    relc_close_session(session);
    CHECK(relc_open_session(store, &none) == RELC_NONE_LEFT && none == NULL);
    CHECK(relc_give_back(store, kept) == RELC_DONE);
    CHECK(relc_give_back(store, NULL) == RELC_DONE);
    relc_close_store(store);
}

/* What closes, closes nothing where there is nothing. */
static void test_closing(void)
{
    relc_close_store(NULL);
    relc_close_session(NULL);
    relc_close_waiting(NULL);
    CHECK(relc_version() == RELC_VERSION);
}

static void test_waiting(void)
{
    relc_waiting *waiting = relc_open_waiting();
    relc_store *store = opened(1, 1);
    relc_session *session = session_of(store);
    uint32_t ins = operation(store, "ins").op;
    relc_close_store(store);
    CHECK(waiting != NULL);
    relc_frame frame = {0};
    ask(&frame, ins, 3, 1, 2, 10);
    CHECK(relc_begin_waiting(waiting, session, &frame) == RELC_DONE);
    CHECK(frame.kind == RELC_INSERTED);
    CHECK(relc_begin_waiting(waiting, session, &frame) == RELC_PREPARED);
    CHECK(relc_call(waiting, session, &frame) == RELC_PREPARED);
    CHECK(relc_commit(session, &frame) == RELC_DONE && frame.place == 0);
    relc_ring(waiting);
    CHECK(relc_call(waiting, session, &frame) == RELC_SPENT);
    CHECK(relc_call_group(waiting, session, &frame, 0) == RELC_COUNT);
    CHECK(relc_call_group(waiting, session, &frame, 1) == RELC_SPENT);
    CHECK(relc_begin_group_waiting(waiting, session, &frame, 1) == RELC_SPENT);
    frame.count = 0;
    CHECK(relc_open_group_waiting(waiting, session, &frame, 1) == RELC_SPENT);
    relc_close_session(session);
    relc_close_waiting(waiting);
}

/* A thread that reads what another one reads. */
struct reader {
    relc_session *session;
    uint32_t succ, other;
    time_t until;
    atomic_bool *met;
};

static void *read_on(void *of)
{
    struct reader *reader = of;
    relc_frame frame = {.who = 99};
    ask(&frame, reader->succ, 1, 1, 0, 0);
    /* (the clock is seldom read: a thread that asks the system is often held up just there, and so
     * not at the latch) */
    for (unsigned turn = 0; !atomic_load(reader->met); turn++) {
        if (turn % 1000 == 0 && time(NULL) >= reader->until)
            break;
        uint32_t code = relc_try_call(reader->session, &frame);
        CHECK(code == RELC_DONE || code == RELC_BUSY);
        if (code == RELC_BUSY) {
            CHECK(frame.found == RELC_LATCH && frame.who == reader->other && frame.stripe < 8);
            atomic_store(reader->met, 1);
        }
    }
    return NULL;
}

/* Readers of a stripe get in each other's way by its latch alone, which each holds for a moment.
 * How often is a matter of chance. */
static void test_latch(void)
{
    relc_store *store = opened(2, (uint64_t)1 << 48);
    uint32_t succ = operation(store, "succ").op;
    atomic_bool met = 0;
    struct reader readers[2];
    pthread_t threads[2];
    for (uint32_t at = 0; at < 2; at++)
        readers[at] = (struct reader){session_of(store), succ, 1 - at, time(NULL) + 10, &met};
    relc_close_store(store);
    for (int at = 0; at < 2; at++)
        CHECK(pthread_create(&threads[at], NULL, read_on, &readers[at]) == 0);
    for (int at = 0; at < 2; at++) {
        CHECK(pthread_join(threads[at], NULL) == 0);
        relc_close_session(readers[at].session);
    }
    if (!met)
        puts("no reader met another's latch here: RELC_LATCH isn't tested");
}

#define CALLS 2000

struct side {
    relc_waiting *waiting; /* shared by both, or none: then it tries until it isn't busy */
    relc_session *session;
    uint32_t ins;
    uint64_t first;
    uint64_t places[CALLS];
};

static void *work(void *of)
{
    struct side *side = of;
    relc_frame frame = {0};
    for (uint64_t call = 0; call < CALLS; call++) {
        ask(&frame, side->ins, 3, call % 3, side->first + call, call);
        uint32_t code;
        if (side->waiting) {
            code = relc_call(side->waiting, side->session, &frame);
        } else {
            while ((code = relc_try_call(side->session, &frame)) == RELC_BUSY)
                ;
        }
        CHECK(code == RELC_DONE && frame.kind == RELC_INSERTED && frame.nth == call);
        side->places[call] = frame.place;
    }
    return NULL;
}

static void test_threads(relc_waiting *waiting)
{
    static struct side sides[2];
    char taken[2 * CALLS] = {0};
    relc_store *store = opened(2, CALLS);
    pthread_t threads[2];
    for (int side = 0; side < 2; side++) {
        sides[side].session = session_of(store);
        sides[side].waiting = waiting;
        sides[side].ins = operation(store, "ins").op;
        sides[side].first = (uint64_t)side * CALLS;
        CHECK(pthread_create(&threads[side], NULL, work, &sides[side]) == 0);
    }
    for (int side = 0; side < 2; side++) {
        CHECK(pthread_join(threads[side], NULL) == 0);
        for (int call = 0; call < CALLS; call++) {
            CHECK(sides[side].places[call] < 2 * CALLS && !taken[sides[side].places[call]]++);
            CHECK(call == 0 || sides[side].places[call - 1] < sides[side].places[call]);
        }
        relc_close_session(sides[side].session);
    }
    relc_close_store(store);
}

int main(void)
{
    test_opening();
    test_calls();
    test_tell();
    test_many_and_conflicts();
    test_pages();
    test_version_two();
    test_wide();
    test_busy();
    test_groups_are_refused();
    test_groups();
    test_open_groups();
    test_giving_back();
    test_closing();
    test_waiting();
    test_latch();
    test_threads(NULL);
    relc_waiting *waiting = relc_open_waiting();
    CHECK(waiting != NULL);
    test_threads(waiting);
    relc_close_waiting(waiting);
    puts("relc.h: 16 passed, 0 failed");
    return 0;
}
