/* Tests a store of a specification that is as large as one may be: 32 columns, dependencies and operations, 16 nodes,
 * 24 edges, 16 lock classes with 256 stripes, and as many sessions as a store has. Prints one line, and ends with 0
 * where all is as it should be. With the word `text` it prints the specification. */
#include "relc.h"

#include <stdarg.h>
#include <stdio.h>
#include <stdlib.h>
#include <string.h>

enum { COLUMNS = 32, CHAIN = 14, ACROSS = 8, CLASSES = 16, QUERIES = 30, PASSES = 255, TUPLES = 500, ROOM = 1 << 14 };

#define CHECK(what)                                                        \
    do {                                                                   \
        if (!(what)) {                                                     \
            fprintf(stderr, "%s:%d: %s\n", __FILE__, __LINE__, #what);     \
            exit(1);                                                       \
        }                                                                  \
    } while (0)

static char text[ROOM];
static size_t length;

static void put(const char *form, ...)
{
    va_list values;
    va_start(values, form);
    length += (size_t)vsnprintf(text + length, ROOM - length, form, values);
    va_end(values);
    CHECK(length < ROOM);
}

/* the columns from one number to another */
static void put_columns(int first, int last)
{
    for (int column = first; column <= last; column++)
        put(" c%d", column);
}

/* A tuple is found by c0, at once, and over a chain of nodes, of which each has one column more; to some of these the
 * root leads too, by all of their columns. */
static void write_text(void)
{
    put("relc 2\n");
    for (int column = 0; column < COLUMNS; column++)
        put("col c%d num\n", column);
    for (int column = 1; column < COLUMNS; column++)
        put("fd c0 -> c%d\n", column);
    put("fd c0 c1 -> c2\nnode root\nnode all");
    put_columns(0, COLUMNS - 1);
    for (int node = 1; node <= CHAIN; node++) {
        put("\nnode n%d", node);
        put_columns(1, node);
    }
    put("\nedge whole root all hash c0\nedge e1 root n1 hash c1\n");
    for (int node = 2; node <= CHAIN; node++)
        put("edge e%d n%d n%d hash c%d\n", node, node - 1, node, node);
    put("edge last n%d all ordered c0\n", CHAIN);
    for (int node = 2; node < 2 + ACROSS; node++) {
        put("edge a%d root n%d hash", node, node);
        put_columns(1, node);
        put("\n");
    }
    for (int class = 0; class < CLASSES; class++)
        put("lock k%d 16 c%d\n", class, class == 0 ? 0 : 1);
    put("place whole k0\nplace last k1\n");
    for (int node = 1; node <= CHAIN; node++)
        put("place e%d k1\n", node);
    for (int node = 2; node < 2 + ACROSS; node++)
        put("place a%d k1\n", node);
    put("op put insert c0\nop drop remove c0\n");
    for (int column = 1; column <= QUERIES; column++)
        put("op q%d query c0 -> c%d\n", column, column);
    put("end\n");
}

/* the value of a tuple at a column */
static uint64_t value(uint64_t tuple, uint64_t column)
{
    return column == 0 ? tuple : tuple % 7 * 100 + column;
}

static void call(relc_session *session, relc_frame *frame, uint32_t op, uint64_t tuple, uint32_t kind)
{
    frame->op = op;
    frame->count = op == 0 ? COLUMNS : 1;
    for (uint64_t column = 0; column < frame->count; column++)
        frame->values[column] = value(tuple, column);
    CHECK(relc_try_call(session, frame) == RELC_DONE && frame->kind == kind);
}

static void test_calls(relc_session **sessions)
{
    static relc_frame frame;
    for (uint64_t tuple = 0; tuple < TUPLES; tuple++)
        call(sessions[tuple % PASSES], &frame, 0, tuple, RELC_INSERTED);
    for (uint64_t tuple = 0; tuple < TUPLES; tuple++) {
        uint32_t column = 1 + tuple % QUERIES;
        call(sessions[PASSES - 1 - tuple % PASSES], &frame, 1 + column, tuple, RELC_ROWS);
        frame.row = 0;
        CHECK(frame.number == 1 && relc_row(sessions[PASSES - 1 - tuple % PASSES], &frame) == RELC_DONE);
        CHECK(frame.cells[0] == value(tuple, column));
    }
    for (uint64_t tuple = 0; tuple < TUPLES; tuple++)
        call(sessions[tuple % PASSES], &frame, 1, tuple, RELC_REMOVED);
    CHECK(relc_try_call(sessions[0], &frame) == RELC_DONE && frame.kind == RELC_ABSENT);
}

int main(int count, char **words)
{
    static relc_session *sessions[PASSES + 1];
    write_text();
    if (count == 2 && strcmp(words[1], "text") == 0) {
        fputs(text, stdout);
        return 0;
    }
    relc_open_frame opening = {.passes = PASSES, .limit = 1ull << 48};
    relc_store *store = NULL;
    uint32_t code = relc_open((const uint8_t *)text, length, &opening, &store);
    if (code != RELC_DONE)
        fprintf(stderr, "%.*s\n", (int)opening.length, (const char *)opening.refusal);
    CHECK(code == RELC_DONE);
    for (size_t at = 0; at < PASSES; at++)
        CHECK(relc_open_session(store, &sessions[at]) == RELC_DONE);
    CHECK(relc_open_session(store, &sessions[PASSES]) == RELC_NONE_LEFT);
    test_calls(sessions);
    for (size_t at = 0; at < PASSES; at++)
        relc_close_session(sessions[at]);
    relc_close_store(store);
    printf("a specification of %zu bytes, as large as one may be: %d tuples by %d sessions: 1 passed, 0 failed\n", length,
        TUPLES, PASSES);
    return 0;
}
