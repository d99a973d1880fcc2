/* Plans that are written by hand, in C: those of a store are printed and given back, one that holds fewer locks is taken, and
 * each rule of their lines refuses with its line, a rule of plans with its operation and statement. */
#include "relc.h"

#include <stddef.h>
#include <stdio.h>
#include <stdlib.h>
#include <string.h>

#define LIES(field, at) _Static_assert(offsetof(relc_text_page, field) == (at), "TextPage " #field)
_Static_assert(sizeof(relc_text_page) == 4120, "TextPage");
LIES(at, 0);
LIES(length, 8);
LIES(count, 16);
LIES(bytes, 24);

#define CHECK(what)                                                     \
    do {                                                                \
        if (!(what)) {                                                  \
            fprintf(stderr, "%s:%d: %s\n", __FILE__, __LINE__, #what);  \
            exit(1);                                                    \
        }                                                               \
    } while (0)

/* A graph whose successors the planner reads by the edge that has all rows, under all of its stripes: its costs know no sizes. */
static const char GRAPH[] =
    "relc 1\ncol src num\ncol dst num\ncol weight num\nfd src dst -> weight\n"
    "node root\nnode u src\nnode w src dst weight\nnode p src dst weight\n"
    "edge e1 root u hash src\nedge e2 u w list dst weight\nedge e3 root p hash src dst\n"
    "lock k1 8 src\nlock k2 2 dst\nplace e1 k1\nplace e2 k1\nplace e3 k2\n"
    "op ins insert src dst\nop del remove src dst\nop succ query src -> dst weight\n"
    "op find query src dst -> weight\nend\n";

/* a plan that reads the successors alone, under one stripe of eight */
static const char BY_HAND[] =
    "plan succ\nlock k1 keyed shared\nread e1 lookup\nread e2 scan\nemit\ncommit\nrelease k1\nend\n\n# nothing more\n";

static relc_store *opened(const char *plans)
{
    relc_open_frame frame = {.passes = 2, .limit = 100};
    relc_store *store = NULL;
    CHECK(relc_open_with_plans((const uint8_t *)GRAPH, strlen(GRAPH), (const uint8_t *)plans, plans ? strlen(plans) : 0, &frame,
                               &store) == RELC_DONE);
    CHECK(store != NULL && frame.length == 0);
    return store;
}

/* the text of a store's plans, part by part, with `end` behind it */
static char *plans_of(relc_store *store)
{
    relc_text_page page = {0};
    char *text = NULL;
    do {
        CHECK(relc_plans(store, &page) == RELC_DONE);
        text = realloc(text, page.length + 5);
        CHECK(text != NULL && page.at + page.count <= page.length);
        memcpy(text + page.at, page.bytes, page.count);
        page.at += page.count;
    } while (page.count != 0);
    CHECK(page.at == page.length);
    memcpy(text + page.length, "end\n", 5);
    return text;
}

static void refused(const char *plans, uint32_t code, const char *refusal)
{
    relc_open_frame frame = {.passes = 1, .limit = 1};
    relc_store *store = NULL;
    CHECK(relc_open_with_plans((const uint8_t *)GRAPH, strlen(GRAPH), (const uint8_t *)plans, strlen(plans), &frame, &store) == code);
    CHECK(store == NULL && frame.length == strlen(refusal) && memcmp(frame.refusal, refusal, frame.length) == 0);
    const char *why = relc_rule_text(&frame);
    CHECK((why != NULL) == (*refusal != 0));
    CHECK(why == NULL || strlen(why) > 100);
}

static uint32_t operation(relc_store *store, const char *name)
{
    relc_operation_frame frame = {.length = (uint32_t)strlen(name)};
    memcpy(frame.name, name, frame.length);
    CHECK(relc_operation(store, &frame) == RELC_DONE);
    return frame.op;
}

/* What the plans of a store print as, given back, gives a store with the same; so does no text, and an empty one. */
static void test_given_back(void)
{
    relc_store *planned = opened(NULL), *empty = opened(""), *by_hand = opened(BY_HAND);
    char *text = plans_of(planned), *none = plans_of(empty), *written = plans_of(by_hand);
    CHECK(strcmp(text, none) == 0);
    CHECK(strstr(text, "plan succ\nlock k2 all shared\nread e3 scan\nemit\ncommit\nrelease k2\n") != NULL);
    CHECK(strstr(written, "plan succ\nlock k1 keyed shared\nread e1 lookup\nread e2 scan\nemit\ncommit\nrelease k1\n") != NULL);
    relc_store *again = opened(text), *twice = opened(written);
    char *same = plans_of(again), *also = plans_of(twice);
    CHECK(strcmp(text, same) == 0 && strcmp(written, also) == 0 && strcmp(text, written) != 0);
    relc_text_page past = {.at = (uint64_t)1 << 40};
    CHECK(relc_plans(planned, &past) == RELC_DONE && past.count == 0 && past.length == strlen(text) - 4);
    relc_store *stores[] = {planned, empty, by_hand, again, twice};
    char *texts[] = {text, none, written, same, also};
    for (int at = 0; at < 5; at++) {
        relc_close_store(stores[at]);
        free(texts[at]);
    }
}

/* Beside a prepared query for one source an insert at another is answered, or is busy, as the plan has it; the replies are the same. */
static void beside(const char *plans, uint32_t code)
{
    relc_store *store = opened(plans);
    relc_session *reader = NULL, *writer = NULL;
    CHECK(relc_open_session(store, &reader) == RELC_DONE && relc_open_session(store, &writer) == RELC_DONE);
    uint32_t ins = operation(store, "ins"), succ = operation(store, "succ");
    relc_frame frame = {.op = ins, .count = 3, .values = {1, 2, 10}};
    CHECK(relc_try_call(writer, &frame) == RELC_DONE && frame.kind == RELC_INSERTED);
    relc_frame asked = {.op = succ, .count = 1, .values = {1}};
    CHECK(relc_begin(reader, &asked) == RELC_DONE && asked.kind == RELC_ROWS && asked.number == 1);
    frame.values[0] = 2;
    CHECK(relc_try_call(writer, &frame) == code);
    CHECK(relc_commit(reader, &asked) == RELC_DONE);
    CHECK(relc_row(reader, &asked) == RELC_DONE && asked.width == 2 && asked.cells[0] == 2 && asked.cells[1] == 10);
    relc_close_session(reader);
    relc_close_session(writer);
    relc_close_store(store);
}

static void test_refusals(void)
{
    refused("plan nothing\nend\n", RELC_PLAN_LINE, "refused H1 line 1");
    refused("plan succ\nlock k1\nend\n", RELC_PLAN_LINE, "refused H2 line 2");
    refused("emit\nend\n", RELC_PLAN_LINE, "refused H2 line 1");
    refused("plan succ\nlock k9 keyed\nend\n", RELC_PLAN_LINE, "refused H3 line 2");
    refused("plan succ\nemit\n", RELC_PLAN_LINE, "refused S8 line 3");
    refused("end\n\nend\n", RELC_PLAN_LINE, "refused S8 line 3");
    refused("plan succ\nlock k2 all shared\nlock k1 keyed shared\nend\n", RELC_PLAN, "refused K2 plan succ statement 1");
    refused("plan succ\nend\n", RELC_PLAN, "refused K1 plan succ statement 0");
    /* lines before rules of plans, and the first plan that breaks a rule */
    refused("plan succ\nplan find\nplan ins\ncheck 9\nend\n", RELC_PLAN_LINE, "refused H3 line 4");
    refused("plan find\nplan succ\nend\n", RELC_PLAN, "refused K1 plan find statement 0");
    char *many = malloc(10 + 257 * 21 + 5);
    strcpy(many, "plan succ\n");
    for (int at = 0; at < 257; at++)
        strcat(many, "lock k1 keyed shared\n");
    strcat(many, "end\n");
    refused(many, RELC_PLAN_LINE, "refused H4 line 258");
    free(many);
    char *blank = malloc((1 << 24) + 2);
    memset(blank, '\n', (1 << 24) + 1);
    blank[(1 << 24) + 1] = 0;
    refused(blank, RELC_TOO_LONG, "");
    blank[1 << 24] = 0;
    relc_close_store(opened(blank));
    free(blank);
    /* the specification comes first */
    relc_open_frame frame = {.passes = 1, .limit = 1};
    relc_store *store = NULL;
    CHECK(relc_open_with_plans((const uint8_t *)"relc 3\n", 7, (const uint8_t *)"emit\n", 5, &frame, &store) == RELC_LINE);
    CHECK(store == NULL && frame.length == 17 && memcmp(frame.refusal, "refused S1 line 1", 17) == 0);
}

int main(void)
{
    test_given_back();
    beside(NULL, RELC_BUSY);
    beside(BY_HAND, RELC_DONE);
    test_refusals();
    puts("plans: 4 passed, 0 failed");
    return 0;
}
