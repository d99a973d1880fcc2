/* Operations that the specification doesn't declare, in C: a text of shapes gives them, they are looked up by what they ask, each
 * rule of their lines refuses with its line, and the declared operations stay as they are. */
#include "relc.h"

#include <stddef.h>
#include <stdio.h>
#include <stdlib.h>
#include <string.h>

#define CHECK(what)                                                     \
    do {                                                                \
        if (!(what)) {                                                  \
            fprintf(stderr, "%s:%d: %s\n", __FILE__, __LINE__, #what);  \
            exit(1);                                                    \
        }                                                               \
    } while (0)

#define ITEMS                                                                                     \
    "col src num\ncol dst num\ncol weight num\nfd src dst -> weight\nnode root\nnode u src\n"     \
    "node w src dst weight\nedge e1 root u hash src\nedge e2 u w list dst weight\nlock k1 8 src\n" \
    "place e1 k1\nplace e2 k1\nop ins insert src dst\nop succ query src -> dst weight\nend\n"
static const char ONE[] = "relc 1\n" ITEMS, TWO[] = "relc 2\n" ITEMS;

static const uint8_t *bytes(const char *text)
{
    return (const uint8_t *)text;
}

static relc_store *opened(const char *text, const char *shapes, const char *plans)
{
    relc_open_frame frame = {.passes = 2, .limit = 100};
    relc_store *store = NULL;
    CHECK(relc_open_with(bytes(text), strlen(text), bytes(shapes), shapes ? strlen(shapes) : 0, bytes(plans),
                         plans ? strlen(plans) : 0, &frame, &store) == RELC_DONE);
    CHECK(store != NULL && frame.length == 0);
    return store;
}

static void refused(const char *text, const char *shapes, const char *plans, uint32_t code, const char *refusal)
{
    relc_open_frame frame = {.passes = 1, .limit = 1};
    relc_store *store = NULL;
    CHECK(relc_open_with(bytes(text), strlen(text), bytes(shapes), strlen(shapes), bytes(plans), strlen(plans), &frame, &store)
          == code);
    CHECK(store == NULL && frame.length == strlen(refusal) && memcmp(frame.refusal, refusal, frame.length) == 0);
    const char *why = relc_rule_text(&frame);
    CHECK((why != NULL) == (*refusal != 0));
}

/* the operation that asks as the line does, and the code of looking it up */
static uint32_t shape(relc_store *store, const char *line, relc_operation_frame *frame)
{
    memset(frame, 0, sizeof *frame);
    return relc_shape(store, bytes(line), strlen(line), frame);
}

/* the number that the library has for an operation, beside what check.c puts before it */
static uint32_t plain(uint32_t op)
{
    return op & 0xffff;
}

static void test_found(void)
{
    static const char SHAPES[] =
        "# what nobody declared\nquery dst -> src\n\nquery src dst -> weight\n  query dst -> src\nremove src dst\n"
        "query src -> dst weight\ninsert dst src\n";
    relc_store *store = opened(ONE, SHAPES, NULL);
    relc_operation_frame frame;
    static const struct { const char *line; uint32_t op, kind, count; uint64_t width; } found[] = {
        {"query dst -> src", 2, 0, 1, 1}, {"query src dst -> weight", 3, 0, 2, 1}, {"remove src dst", 4, 2, 2, 3},
        /* a declared operation is the first that asks so */
        {"query src -> dst weight", 1, 0, 1, 2}, {"insert src dst", 0, 1, 3, 0}, {"insert dst src", 6, 1, 3, 0},
        {" query\tdst  ->\tsrc ", 2, 0, 1, 1},
    };
    for (size_t at = 0; at < sizeof found / sizeof *found; at++) {
        CHECK(shape(store, found[at].line, &frame) == RELC_DONE);
        CHECK(plain(frame.op) == found[at].op && frame.kind == found[at].kind && frame.count == found[at].count);
        CHECK(frame.width == found[at].width && frame.length == 0);
    }
    CHECK(shape(store, "remove src dst", &frame) == RELC_DONE && frame.pattern_count == 2);
    CHECK(frame.columns[0] == 0 && frame.columns[1] == 1 && frame.pattern[0] == 0 && frame.pattern[1] == 1);
    /* other lists, another order, and lines that are none */
    static const char *const none[] = {
        "query src -> weight dst", "query dst src -> weight", "query src : weight -> dst", "update src dst", "remove src",
        "query", "query src", "query src -> dst -> weight", "query src src -> dst", "query cost -> dst", "# query dst -> src", "",
        "op succ query src -> dst weight", "query dst -> src\nquery dst -> src", "query \"dst\" -> src",
    };
    for (size_t at = 0; at < sizeof none / sizeof *none; at++)
        CHECK(shape(store, none[at], &frame) == RELC_OPERATION && frame.op == 0 && frame.count == 0);
    char *wide = malloc(RELC_SHAPE + 2);
    memset(wide, ' ', RELC_SHAPE + 1);
    memcpy(wide, "remove src dst", 14);
    wide[RELC_SHAPE + 1] = 0;
    CHECK(shape(store, wide, &frame) == RELC_OPERATION);
    wide[RELC_SHAPE] = 0;
    CHECK(shape(store, wide, &frame) == RELC_DONE && plain(frame.op) == 4);
    free(wide);
    /* by name too */
    relc_operation_frame named = {.length = 2, .name = "?2"};
    CHECK(relc_operation(store, &named) == RELC_DONE && plain(named.op) == 3);
    named = (relc_operation_frame){.length = 4, .name = "succ"};
    CHECK(relc_operation(store, &named) == RELC_DONE && plain(named.op) == 1);
    relc_close_store(store);
}

static void test_called(void)
{
    relc_store *store = opened(TWO, "query dst -> src\nquery src : weight -> dst\nupdate src dst\nremove src dst\n", "");
    relc_session *session = NULL;
    CHECK(relc_open_session(store, &session) == RELC_DONE);
    relc_operation_frame ins, into, light, change, drop;
    CHECK(shape(store, "insert src dst", &ins) == RELC_DONE && shape(store, "query dst -> src", &into) == RELC_DONE);
    CHECK(shape(store, "query src : weight -> dst", &light) == RELC_DONE && light.count == 3);
    CHECK(shape(store, "update src dst", &change) == RELC_DONE && shape(store, "remove src dst", &drop) == RELC_DONE);
    relc_frame frame = {.op = ins.op, .count = 3, .values = {1, 9, 10}};
    CHECK(relc_try_call(session, &frame) == RELC_DONE && frame.kind == RELC_INSERTED);
    frame.values[0] = 2;
    CHECK(relc_try_call(session, &frame) == RELC_DONE && frame.kind == RELC_INSERTED);
    relc_frame asked = {.op = into.op, .count = 1, .values = {9}};
    CHECK(relc_try_call(session, &asked) == RELC_DONE && asked.kind == RELC_ROWS && asked.number == 2);
    asked.row = 1;
    CHECK(relc_row(session, &asked) == RELC_DONE && asked.width == 1 && asked.cells[0] == 2);
    frame = (relc_frame){.op = change.op, .count = 3, .values = {1, 9, 30}};
    CHECK(relc_try_call(session, &frame) == RELC_DONE && frame.kind == RELC_UPDATED);
    frame = (relc_frame){.op = light.op, .count = 3, .values = {1, 5, 20}};
    CHECK(relc_try_call(session, &frame) == RELC_DONE && frame.kind == RELC_ROWS && frame.number == 0);
    frame.values[2] = 30;
    CHECK(relc_try_call(session, &frame) == RELC_DONE && frame.number == 1);
    frame = (relc_frame){.op = drop.op, .count = 2, .values = {1, 9}};
    CHECK(relc_try_call(session, &frame) == RELC_DONE && frame.kind == RELC_REMOVED);
    CHECK(relc_row(session, &frame) == RELC_DONE && frame.width == 3 && frame.cells[2] == 30);
    relc_close_session(session);
    relc_close_store(store);
}

static void test_plans(void)
{
    static const char BY_HAND[] = "plan succ\nlock k1 keyed shared\nread e1 lookup\nread e2 scan\nemit\ncommit\nrelease k1\nend\n";
    relc_store *store = opened(ONE, "query dst -> src\n", BY_HAND);
    relc_text_page page = {0};
    CHECK(relc_plans(store, &page) == RELC_DONE && page.count == page.length && page.length < RELC_TEXT);
    page.bytes[page.length] = 0;
    CHECK(strstr((const char *)page.bytes, "plan succ\nlock k1 keyed shared\n") != NULL);
    CHECK(strstr((const char *)page.bytes, "plan ?1\n") != NULL);
    relc_close_store(store);
    relc_close_store(opened(ONE, NULL, NULL));
    relc_close_store(opened(ONE, "\n# none\n", "end\n"));
}

static void test_refusals(void)
{
    refused(ONE, "query dst -> src\nquery dst\n", "", RELC_SHAPE_LINE, "refused S2 line 2");
    refused(ONE, "op into query dst -> src\n", "", RELC_SHAPE_LINE, "refused S2 line 1");
    refused(ONE, "end\n", "", RELC_SHAPE_LINE, "refused S2 line 1");
    refused(ONE, "update src dst\n", "", RELC_SHAPE_LINE, "refused S2 line 1");
    refused(ONE, "query src : weight -> dst\n", "", RELC_SHAPE_LINE, "refused S4 line 1");
    refused(TWO, "query src : src -> dst\n", "", RELC_SHAPE_LINE, "refused S3 line 1");
    refused(ONE, "query src src -> cost\n", "", RELC_SHAPE_LINE, "refused S3 line 1");
    refused(ONE, "# one\n\nremove cost\n", "", RELC_SHAPE_LINE, "refused S4 line 3");
    refused(ONE, "remove src\n", "", RELC_SHAPE_LINE, "refused W4 line 1");
    refused(ONE, "insert\n", "", RELC_SHAPE_LINE, "refused W4 line 1");
    refused(ONE, "query src -> dst dst\n", "", RELC_SHAPE_LINE, "refused W4 line 1");
    /* the 33rd, also where it breaks W4; a line that asks as an earlier one does is none more */
    static const char *const patterns[] = {
        "", " src", " dst", " weight", " src dst", " dst src", " src weight", " weight src", " dst weight", " weight dst",
        " src dst weight",
    };
    static const char *const outs[] = {"src", "dst", "weight"};
    char text[4096] = "";
    for (int at = 0; at < 32; at++)
        snprintf(text + strlen(text), sizeof text - strlen(text), "query%s -> %s\n", patterns[at / 3], outs[at % 3]);
    strcat(text, "query src -> dst\n");
    relc_close_store(opened(ONE, text, NULL));
    char *end = text + strlen(text);
    strcpy(end, "query src dst weight -> weight\n");
    refused(ONE, text, "", RELC_SHAPE_LINE, "refused S6 line 34");
    strcpy(end, "insert\n");
    refused(ONE, text, "", RELC_SHAPE_LINE, "refused S6 line 34");
    /* the specification comes first, and the lines of plans behind those of shapes */
    refused("relc 3\n", "nothing\n", "nothing\n", RELC_LINE, "refused S1 line 1");
    refused(ONE, "nothing\n", "nothing\n", RELC_SHAPE_LINE, "refused S2 line 1");
    refused(ONE, "query dst -> src\n", "nothing\n", RELC_PLAN_LINE, "refused H2 line 1");
    /* no plan of a further operation may be written */
    refused(ONE, "query dst -> src\n", "plan ?1\nend\n", RELC_PLAN_LINE, "refused H1 line 1");
    refused(ONE, "query dst -> src\n", "plan succ\nend\n", RELC_PLAN, "refused K1 plan succ statement 0");
    char *blank = malloc((1 << 24) + 2);
    memset(blank, '\n', (1 << 24) + 1);
    blank[(1 << 24) + 1] = 0;
    refused(ONE, blank, "", RELC_TOO_LONG, "");
    blank[1 << 24] = 0;
    relc_close_store(opened(ONE, blank, NULL));
    free(blank);
}

int main(void)
{
    test_found();
    test_called();
    test_plans();
    test_refusals();
    puts("shapes: 4 passed, 0 failed");
    return 0;
}
