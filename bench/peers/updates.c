/* Makes changes of tuples through relc.h on one thread, each by an update, or by a remove and an insert. `sh bench/updates.sh` builds
 * it, and counts what it takes.
 *
 *     updates SPECIFICATION graph|seats|states update|replace CHANGES
 *
 * It inserts TUPLES tuples, and then changes one after the other, round by round: of an edge of a graph its weight, of a guest the seat, of a
 * process the state. */
#include "relc.h"

#include <stdio.h>
#include <stdlib.h>
#include <string.h>

#define TUPLES 64

#define WANT(what)                                                     \
    do {                                                               \
        if (!(what)) {                                                 \
            fprintf(stderr, "%s:%d: %s\n", __FILE__, __LINE__, #what); \
            exit(1);                                                   \
        }                                                              \
    } while (0)

enum subject { GRAPH, SEATS, STATES };

/* how many values a remove takes */
static const uint32_t KEYS[] = {2, 1, 1};

/* the tuple with this number in a round, in the order of its columns */
static void fill(uint64_t *values, enum subject subject, uint64_t number, uint64_t round)
{
    const uint64_t tuples[][3] = {
        {number % 8, number / 8, round},
        {number, number, number + TUPLES * (round % 2)},
        {number, round % 3, number % 4},
    };
    memcpy(values, tuples[subject], sizeof tuples[subject]);
}

static uint32_t number_of(relc_store *store, const char *name)
{
    relc_operation_frame frame = {.length = (uint32_t)strlen(name)};
    memcpy(frame.name, name, frame.length);
    WANT(relc_operation(store, &frame) == RELC_DONE);
    return frame.op;
}

static void call(relc_session *session, relc_frame *frame, uint32_t op, uint32_t count, uint32_t kind)
{
    frame->op = op;
    frame->count = count;
    WANT(relc_try_call(session, frame) == RELC_DONE && frame->kind == kind);
}

int main(int words, char **word)
{
    WANT(words == 5);
    enum subject subject = word[2][0] == 'g' ? GRAPH : word[2][1] == 'e' ? SEATS : STATES;
    int updates = word[3][0] == 'u';
    uint64_t changes = strtoull(word[4], NULL, 10);
    static uint8_t text[4096];
    FILE *file = fopen(word[1], "rb");
    WANT(file != NULL);
    size_t length = fread(text, 1, sizeof text, file);
    fclose(file);
    relc_open_frame opening = {.passes = 1, .limit = 1ull << 48};
    relc_store *store;
    relc_session *session;
    WANT(relc_open(text, length, &opening, &store) == RELC_DONE);
    uint32_t ins = number_of(store, "ins"), del = number_of(store, "del"), set = number_of(store, "set");
    WANT(relc_open_session(store, &session) == RELC_DONE);
    relc_frame frame = {0};
    for (uint64_t number = 0; number < TUPLES; number++) {
        fill(frame.values, subject, number, 0);
        call(session, &frame, ins, 3, RELC_INSERTED);
    }
    for (uint64_t at = 0; at < changes; at++) {
        fill(frame.values, subject, at % TUPLES, 1 + at / TUPLES);
        if (updates) {
            call(session, &frame, set, 3, RELC_UPDATED);
        } else {
            call(session, &frame, del, KEYS[subject], RELC_REMOVED);
            call(session, &frame, ins, 3, RELC_INSERTED);
        }
    }
    relc_close_session(session);
    relc_close_store(store);
    return 0;
}
