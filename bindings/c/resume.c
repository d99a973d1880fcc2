/* Stores that are closed and go on, in C: with their tuples, their history and their operations' numbers, with further operations
 * and sessions, and again and again; and what is refused leaves the store, or the closed store, as it was. */
#include "relc.h"

#include <stdio.h>
#include <stdlib.h>
#include <string.h>

#define CHECK(what)                                                     \
    do {                                                                \
        if (!(what)) {                                                  \
            fprintf(stderr, "%s:%d: %s\n", __FILE__, __LINE__, #what);  \
            exit(1);                                                    \
        }                                                               \
    } while (0)

#define COLUMNS "col src num\ncol dst num\ncol weight num\nfd src dst -> weight\n"
#define EDGES "node root\nnode u src\nnode w src dst weight\nedge e1 root u hash src\nedge e2 u w list dst weight\n"
#define LOCKS "lock k1 8 src\nplace e1 k1\nplace e2 k1\n"
#define OPERATIONS "op ins insert src dst\nop del remove src dst\nop succ query src -> dst weight\n"
#define FURTHER "op into query dst -> src weight\n"
static const char TEXT[] = "relc 1\n" COLUMNS EDGES LOCKS OPERATIONS "end\n";
/* with an operation more behind its own, and with that by the other header, which updates and ranges want */
static const char MORE[] = "relc 1\n" COLUMNS EDGES LOCKS OPERATIONS FURTHER "end\n";
static const char MOST[] = "relc 2\n" COLUMNS EDGES LOCKS OPERATIONS FURTHER "end\n";

enum { INS, DEL, SUCC, INTO }; /* as they stand in the texts */
static const char *const NAMES[] = {"ins", "del", "succ", "into"};

enum { LIMIT = 100, PASSES = 2 };

static const uint8_t *bytes(const char *text)
{
    return (const uint8_t *)text;
}

static relc_store *opened(void)
{
    relc_open_frame frame = {.passes = PASSES, .limit = LIMIT};
    relc_store *store = NULL;
    CHECK(relc_open(bytes(TEXT), strlen(TEXT), &frame, &store) == RELC_DONE);
    return store;
}

static relc_session *begun(relc_store *store)
{
    relc_session *session = NULL;
    CHECK(relc_open_session(store, &session) == RELC_DONE);
    return session;
}

static relc_closed *closed_of(relc_store *store)
{
    relc_closed *closed = NULL;
    CHECK(relc_close(store, &closed) == RELC_DONE && closed != NULL);
    return closed;
}

/* what a closed store is to go on with */
struct further {
    const char *text, *shapes, *plans;
    relc_open_frame frame;
};

static const struct further SAME = {.text = TEXT, .frame = {.passes = PASSES, .limit = LIMIT}};

static uint32_t resume(relc_closed *closed, struct further with, relc_store **store, relc_open_frame *told)
{
    *told = with.frame;
    return relc_resume(closed, bytes(with.text), strlen(with.text), bytes(with.shapes), with.shapes ? strlen(with.shapes) : 0,
                       bytes(with.plans), with.plans ? strlen(with.plans) : 0, told, store);
}

static relc_store *resumed(relc_closed *closed, struct further with)
{
    relc_open_frame told;
    relc_store *store = NULL;
    CHECK(resume(closed, with, &store, &told) == RELC_DONE && store != NULL && told.length == 0);
    return store;
}

static void refused(relc_closed *closed, struct further with, uint32_t code, const char *refusal)
{
    relc_open_frame told;
    relc_store *store = NULL;
    CHECK(resume(closed, with, &store, &told) == code && store == NULL);
    CHECK(told.length == strlen(refusal) && memcmp(told.refusal, refusal, told.length) == 0);
    CHECK((relc_rule_text(&told) != NULL) == (*refusal != 0));
}

static uint32_t number_of(relc_store *store, const char *name)
{
    relc_operation_frame frame = {.length = (uint32_t)strlen(name)};
    memcpy(frame.name, name, frame.length);
    CHECK(relc_operation(store, &frame) == RELC_DONE);
    return frame.op;
}

static uint32_t number_of_shape(relc_store *store, const char *line)
{
    relc_operation_frame frame = {0};
    CHECK(relc_shape(store, bytes(line), strlen(line), &frame) == RELC_DONE);
    return frame.op;
}

/* makes a call of up to three values, at this place of the history, as this one of the session's own */
static relc_frame called(relc_session *session, uint32_t op, uint32_t count, const uint64_t *values, uint64_t place, uint64_t nth)
{
    relc_frame frame = {.op = op, .count = count};
    memcpy(frame.values, values, count * sizeof *values);
    CHECK(relc_try_call(session, &frame) == RELC_DONE);
    CHECK(frame.place == place && frame.nth == nth);
    return frame;
}

#define CALLED(session, op, place, nth, ...) \
    called(session, op, sizeof((uint64_t[]){__VA_ARGS__}) / sizeof(uint64_t), (uint64_t[]){__VA_ARGS__}, place, nth)

static void check_row(relc_session *session, uint64_t row, uint64_t first, uint64_t second)
{
    relc_frame frame = {.row = row};
    CHECK(relc_row(session, &frame) == RELC_DONE && frame.width == 2);
    CHECK(frame.cells[0] == first && frame.cells[1] == second);
}

/* A store of three edges, which its first session put there by two calls, and its second by one. */
static relc_closed *closed_with_edges(void)
{
    relc_store *store = opened();
    relc_session *one = begun(store), *two = begun(store);
    uint32_t ins = number_of(store, "ins");
    CHECK(CALLED(one, ins, 0, 0, 1, 2, 10).kind == RELC_INSERTED);
    CHECK(CALLED(two, ins, 1, 0, 2, 3, 20).kind == RELC_INSERTED);
    CHECK(CALLED(one, ins, 2, 1, 1, 3, 30).kind == RELC_INSERTED);
    CHECK(relc_give_back(store, two) == RELC_DONE && relc_give_back(store, one) == RELC_DONE);
    return closed_of(store);
}

/* The edges are those of above, as a store says that goes on from it. It has made three calls then. */
static void check_edges(relc_store *store)
{
    relc_session *session = begun(store);
    uint32_t succ = number_of(store, "succ");
    CHECK(CALLED(session, succ, 3, 2, 1).number == 2);
    check_row(session, 0, 2, 10);
    check_row(session, 1, 3, 30);
    CHECK(CALLED(session, succ, 4, 3, 2).number == 1);
    check_row(session, 0, 3, 20);
    CHECK(CALLED(session, succ, 5, 4, 3).number == 0);
    CHECK(relc_give_back(store, session) == RELC_DONE);
}

static void test_goes_on(void)
{
    relc_store *store = resumed(closed_with_edges(), SAME);
    check_edges(store);
    /* each session goes on with what that of its number had made, and all have seen what was made by then */
    relc_session *one = begun(store), *two = begun(store), *none = NULL;
    CHECK(relc_open_session(store, &none) == RELC_NONE_LEFT && none == NULL);
    uint32_t ins = number_of(store, "ins"), del = number_of(store, "del"), succ = number_of(store, "succ");
    CHECK(CALLED(two, ins, 6, 1, 1, 2, 11).kind == RELC_PRESENT);
    CHECK(CALLED(two, del, 7, 2, 1, 2).kind == RELC_REMOVED);
    relc_frame look = {.seen = 8};
    CHECK(relc_learn(one, &look) == RELC_DONE && look.seen == 8);
    CHECK(CALLED(one, succ, 8, 5, 1).number == 1);
    CHECK(relc_give_back(store, one) == RELC_DONE && relc_give_back(store, two) == RELC_DONE);
    /* and again, one call after another; the numbers of operations are those of before */
    for (uint64_t turn = 0; turn < 20; turn++) {
        store = resumed(closed_of(store), SAME);
        one = begun(store);
        CHECK(CALLED(one, ins, 9 + turn, 6 + turn, 7, turn, turn).kind == RELC_INSERTED);
        CHECK(relc_give_back(store, one) == RELC_DONE);
    }
    one = begun(store);
    CHECK(CALLED(one, succ, 29, 26, 7).number == 20);
    check_row(one, 19, 19, 19);
    relc_close_session(one);
    relc_close_store(store);
}

/* One that has seen the history before it was closed has, in the store that goes on, seen all of it. */
static void test_is_seen(void)
{
    relc_store *store = resumed(closed_with_edges(), SAME);
    relc_session *two;
    relc_close_session(begun(store));
    two = begun(store);
    relc_frame look = {.seen = 3};
    CHECK(relc_learn(two, &look) == RELC_DONE && look.seen == 3);
    look.seen = 4;
    CHECK(relc_learn(two, &look) == RELC_UNSEEN);
    relc_close_session(two);
    relc_close_store(store);
}

static void test_further_operations(void)
{
    /* behind the declared ones, by a line of the text */
    struct further more = SAME;
    more.text = MORE;
    relc_store *store = resumed(closed_with_edges(), more);
    for (uint32_t op = INS; op <= INTO; op++)
        CHECK((number_of(store, NAMES[op]) & 0xffff) == op);
    check_edges(store);
    relc_session *session = begun(store);
    CHECK(CALLED(session, number_of(store, "into"), 6, 5, 3).number == 2);
    check_row(session, 0, 1, 30);
    check_row(session, 1, 2, 20);
    CHECK(relc_give_back(store, session) == RELC_DONE);
    /* by a shape behind that, and by another one behind both */
    more.shapes = "query src dst -> weight src\n";
    store = resumed(closed_of(store), more);
    uint32_t find = number_of_shape(store, "query src dst -> weight src");
    CHECK((find & 0xffff) == 4);
    session = begun(store);
    CHECK(CALLED(session, find, 7, 6, 2, 3).number == 1);
    check_row(session, 0, 20, 2);
    CHECK(relc_give_back(store, session) == RELC_DONE);
    relc_closed *closed = closed_of(store);
    refused(closed, SAME, RELC_OTHER, "");
    more.shapes = NULL;
    refused(closed, more, RELC_OTHER, "");
    more.shapes = "query weight -> src dst\nquery src dst -> weight src\n";
    refused(closed, more, RELC_OTHER, "");
    more.shapes = "query src dst -> weight src\nremove dst src\nquery weight -> src dst\n";
    store = resumed(closed, more);
    session = begun(store);
    CHECK(CALLED(session, find, 8, 7, 2, 3).number == 1);
    CHECK(CALLED(session, number_of_shape(store, "query weight -> src dst"), 9, 8, 30).number == 1);
    check_row(session, 0, 1, 3);
    CHECK(CALLED(session, number_of_shape(store, "remove dst src"), 10, 9, 3, 1).kind == RELC_REMOVED);
    CHECK(relc_give_back(store, session) == RELC_DONE);
    /* by the other header, with what that has beside */
    more.text = MOST;
    more.shapes = "query src dst -> weight src\nremove dst src\nquery weight -> src dst\nupdate src dst\n";
    store = resumed(closed_of(store), more);
    session = begun(store);
    CHECK(CALLED(session, number_of_shape(store, "update src dst"), 11, 10, 1, 2, 11).kind == RELC_UPDATED);
    CHECK(CALLED(session, find, 12, 11, 1, 2).number == 1);
    check_row(session, 0, 11, 1);
    relc_close_session(session);
    relc_close_store(store);
}

static void test_sessions(void)
{
    struct further more = SAME;
    more.frame.passes = 4;
    relc_store *store = resumed(closed_with_edges(), more);
    relc_session *all[4], *none = NULL;
    uint64_t before[] = {2, 1, 0, 0};
    uint32_t ins = number_of(store, "ins");
    for (uint64_t at = 0; at < 4; at++) {
        all[at] = begun(store);
        CHECK(CALLED(all[at], ins, 3 + at, before[at], 9, at, 0).kind == RELC_INSERTED);
    }
    CHECK(relc_open_session(store, &none) == RELC_NONE_LEFT);
    for (uint64_t at = 0; at < 4; at++)
        CHECK(relc_give_back(store, all[at]) == RELC_DONE);
    relc_closed *closed = closed_of(store);
    refused(closed, SAME, RELC_SESSIONS, "");
    more.frame.passes = 255;
    store = resumed(closed, more);
    all[0] = begun(store);
    CHECK(CALLED(all[0], number_of(store, "succ"), 7, 3, 9).number == 4);
    relc_close_session(all[0]);
    relc_close_store(store);
}

static void test_limit(void)
{
    struct further with = SAME;
    with.frame.limit = 1;
    relc_closed *closed = closed_with_edges();
    refused(closed, with, RELC_LIMIT, "");
    /* as many as were made leave none */
    with.frame.limit = 2;
    relc_store *store = resumed(closed, with);
    relc_session *one = begun(store), *two = begun(store);
    uint32_t succ = number_of(store, "succ");
    relc_frame frame = {.op = succ, .count = 1, .values = {1}};
    CHECK(relc_try_call(one, &frame) == RELC_SPENT);
    CHECK(CALLED(two, succ, 3, 1, 1).number == 2);
    CHECK(relc_try_call(two, &frame) == RELC_SPENT);
    CHECK(relc_give_back(store, one) == RELC_DONE && relc_give_back(store, two) == RELC_DONE);
    /* and with a higher one they go on */
    closed = closed_of(store);
    store = resumed(closed, SAME);
    one = begun(store);
    CHECK(CALLED(one, succ, 4, 2, 1).number == 2);
    CHECK(relc_give_back(store, one) == RELC_DONE);
    relc_close_store(store);
}

/* the text with one piece in the place of another */
static const char *changed(const char *piece, const char *by)
{
    static char text[sizeof TEXT + 64];
    const char *at = strstr(TEXT, piece);
    CHECK(at != NULL);
    snprintf(text, sizeof text, "%.*s%s%s", (int)(at - TEXT), TEXT, by, at + strlen(piece));
    return text;
}

static void test_refusals(void)
{
    relc_closed *closed = closed_with_edges();
    struct further with = SAME;
#define REFUSED(field, value, code, refusal)      \
    do {                                          \
        with = SAME;                              \
        with.field = (value);                     \
        refused(closed, with, code, refusal);     \
    } while (0)
    REFUSED(frame.passes, 0, RELC_OPTIONS, "");
    REFUSED(frame.passes, 256, RELC_OPTIONS, "");
    REFUSED(frame.limit, 0, RELC_OPTIONS, "");
    REFUSED(frame.rows, (uint64_t)1 << 32, RELC_OPTIONS, "");
    REFUSED(frame.passes, 1, RELC_SESSIONS, "");
    REFUSED(frame.limit, 1, RELC_LIMIT, "");
    REFUSED(text, "relc 3\n", RELC_LINE, "refused S1 line 1");
    REFUSED(text, changed("place e2 k1\n", ""), RELC_RULE, "refused P1 edge e2");
    REFUSED(shapes, "query dst -> src\nquery dst\n", RELC_SHAPE_LINE, "refused S2 line 2");
    REFUSED(shapes, "insert\n", RELC_SHAPE_LINE, "refused W4 line 1");
    REFUSED(plans, "plan nothing\nend\n", RELC_PLAN_LINE, "refused H1 line 1");
    REFUSED(plans, "plan succ\nend\n", RELC_PLAN, "refused K1 plan succ statement 0");
    char *blank = malloc((1 << 24) + 2);
    CHECK(blank != NULL);
    memset(blank, '\n', (1 << 24) + 1);
    blank[(1 << 24) + 1] = 0;
    REFUSED(text, blank, RELC_TOO_LONG, "");
    REFUSED(shapes, blank, RELC_TOO_LONG, "");
    REFUSED(plans, blank, RELC_TOO_LONG, "");
    free(blank);
    /* another specification: other items, fewer operations, another order of them, one in front, and another limit of rows */
    REFUSED(text, changed("lock k1 8 src", "lock k1 4 src"), RELC_OTHER, "");
    REFUSED(text, changed("list dst", "ordered dst"), RELC_OTHER, "");
    REFUSED(text, changed("op succ query src -> dst weight\n", ""), RELC_OTHER, "");
    REFUSED(text, changed("op succ query src -> dst weight", "op succ query src -> weight dst"), RELC_OTHER, "");
    REFUSED(text, changed("op del remove src dst\n", "op into query dst -> src\nop del remove src dst\n"), RELC_OTHER, "");
    REFUSED(frame.rows, 7, RELC_OTHER, "");
    /* it is as it was */
    relc_store *store = resumed(closed, SAME);
    check_edges(store);
    relc_close_store(store);
}

/* A store of which a session is out isn't closed, and works on. */
static void test_outside(void)
{
    relc_store *store = resumed(closed_with_edges(), SAME);
    relc_closed *closed = NULL;
    relc_session *one = begun(store), *two;
    uint32_t succ = number_of(store, "succ"), ins = number_of(store, "ins");
    CHECK(relc_close(store, &closed) == RELC_OUTSIDE && closed == NULL);
    CHECK(CALLED(one, succ, 3, 2, 1).number == 2);
    two = begun(store);
    CHECK(CALLED(two, ins, 4, 1, 5, 6, 7).kind == RELC_INSERTED);
    /* one of them has something prepared, which is cancelled where it is given back */
    relc_frame frame = {.op = ins, .count = 3, .values = {8, 9, 10}};
    CHECK(relc_begin(one, &frame) == RELC_DONE);
    CHECK(relc_give_back(store, two) == RELC_DONE);
    CHECK(relc_close(store, &closed) == RELC_OUTSIDE && closed == NULL);
    CHECK(relc_give_back(store, one) == RELC_DONE);
    store = resumed(closed_of(store), SAME);
    one = begun(store);
    CHECK(CALLED(one, succ, 5, 3, 8).number == 0);
    CHECK(CALLED(one, succ, 6, 4, 5).number == 1);
    CHECK(relc_give_back(store, one) == RELC_DONE);
    /* the pass of a session that was closed is lost, and its store is never closed so */
    relc_close_session(begun(store));
    CHECK(relc_close(store, &closed) == RELC_OUTSIDE && closed == NULL);
    two = begun(store);
    CHECK(CALLED(two, succ, 7, 2, 5).number == 1);
    CHECK(relc_give_back(store, two) == RELC_DONE);
    CHECK(relc_close(store, &closed) == RELC_OUTSIDE && closed == NULL);
    relc_close_store(store);
}

/* Plans may be other ones than before, and what is closed may be dropped, also where nothing was ever done. */
static void test_ends(void)
{
    static const char BY_HAND[] =
        "plan succ\nlock k1 all shared\nread e1 lookup\nread e2 scan\nemit\ncommit\nrelease k1\nend\n";
    struct further with = SAME;
    with.plans = BY_HAND;
    relc_store *store = resumed(closed_with_edges(), with);
    relc_text_page page = {0};
    CHECK(relc_plans(store, &page) == RELC_DONE && page.length < RELC_TEXT);
    page.bytes[page.length] = 0;
    CHECK(strstr((const char *)page.bytes, "plan succ\nlock k1 all shared\n") != NULL);
    check_edges(store);
    relc_drop_closed(closed_of(store));
    relc_drop_closed(closed_of(opened()));
    relc_drop_closed(NULL);
    store = resumed(closed_of(opened()), SAME);
    relc_session *session = begun(store);
    CHECK(CALLED(session, number_of(store, "succ"), 0, 0, 1).number == 0);
    relc_close_session(session);
    relc_close_store(store);
}

int main(void)
{
    test_goes_on();
    test_is_seen();
    test_further_operations();
    test_sessions();
    test_limit();
    test_refusals();
    test_outside();
    test_ends();
    puts("stores that go on: 8 passed, 0 failed");
    return 0;
}
