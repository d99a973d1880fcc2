/* Measures calls on one store by the plans that are planned and by plans that are written by hand, through relc.h: one thread asks for
 * the successors of sources drawn at random, and reads them, while another inserts edges and removes them again. Each waits where the
 * other is in the way. `sh bench/plans.sh` builds and runs it.
 *
 *     planned TEXT NODES DEGREE MILLISECONDS
 *
 * TEXT is one as `relc hand` reads it: a specification, and plans behind it. At first each of NODES sources has DEGREE edges. Each line:
 * by which plans, and how many calls of succ, and of ins and del, were made a second. */
#include "relc_wait.h"

#include <pthread.h>
#include <stdatomic.h>
#include <stdio.h>
#include <stdlib.h>
#include <string.h>
#include <time.h>

#define WANT(what)                                                          \
    do {                                                                    \
        if (!(what)) {                                                      \
            fprintf(stderr, "%s:%d: %s\n", __FILE__, __LINE__, #what);      \
            exit(1);                                                        \
        }                                                                   \
    } while (0)

#define ROOM (1 << 16)

static atomic_int stop;

struct side {
    relc_waiting *waiting;
    relc_session *session;
    uint32_t ins, del, succ;
    uint64_t nodes, degree;
    uint64_t made, rows;
};

static uint64_t drawn(uint64_t *state)
{
    *state ^= *state << 13;
    *state ^= *state >> 7;
    *state ^= *state << 17;
    return *state;
}

static void call(struct side *side, relc_frame *frame, uint32_t op, uint32_t count, uint64_t src, uint64_t dst)
{
    frame->op = op;
    frame->count = count;
    frame->values[0] = src;
    frame->values[1] = dst;
    frame->values[2] = 1;
    WANT(relc_call(side->waiting, side->session, frame) == RELC_DONE);
}

/* asks for successors, and reads them */
static void *read_on(void *of)
{
    struct side *side = of;
    static relc_page page;
    relc_frame frame = {0};
    uint64_t state = 88172645463325252ull;
    for (; !atomic_load(&stop); side->made++) {
        call(side, &frame, side->succ, 1, drawn(&state) % side->nodes, 0);
        page.row = 0;
        if (frame.number != 0)
            WANT(relc_rows(side->session, &page) == RELC_DONE);
        side->rows += page.rows;
    }
    return NULL;
}

/* inserts an edge that isn't there, and removes it again */
static void *write_on(void *of)
{
    struct side *side = of;
    relc_frame frame = {0};
    uint64_t state = 362436069362436069ull;
    for (; !atomic_load(&stop); side->made += 2) {
        uint64_t src = drawn(&state) % side->nodes, dst = side->degree + drawn(&state) % side->nodes;
        call(side, &frame, side->ins, 3, src, dst);
        WANT(frame.kind == RELC_INSERTED);
        call(side, &frame, side->del, 2, src, dst);
        WANT(frame.kind == RELC_REMOVED);
    }
    return NULL;
}

static uint32_t operation(relc_store *store, const char *name)
{
    relc_operation_frame frame = {.length = (uint32_t)strlen(name)};
    memcpy(frame.name, name, frame.length);
    WANT(relc_operation(store, &frame) == RELC_DONE);
    return frame.op;
}

static void measure(const char *how, const char *text, const char *plans, uint64_t nodes, uint64_t degree, long milliseconds)
{
    relc_open_frame frame = {.passes = 2, .limit = 1ull << 48, .seed = {1, 2}};
    relc_store *store = NULL;
    WANT(relc_open_with_plans((const uint8_t *)text, strlen(text), (const uint8_t *)plans, strlen(plans), &frame, &store) == RELC_DONE);
    relc_waiting *waiting = relc_open_waiting();
    WANT(waiting != NULL);
    struct side sides[2];
    for (int at = 0; at < 2; at++) {
        sides[at] = (struct side){.waiting = waiting, .nodes = nodes, .degree = degree};
        sides[at].ins = operation(store, "ins");
        sides[at].del = operation(store, "del");
        sides[at].succ = operation(store, "succ");
        WANT(relc_open_session(store, &sides[at].session) == RELC_DONE);
    }
    relc_frame filling = {0};
    for (uint64_t src = 0; src < nodes; src++)
        for (uint64_t dst = 0; dst < degree; dst++)
            call(&sides[0], &filling, sides[0].ins, 3, src, dst);
    pthread_t ids[2];
    struct timespec begun, ended, pause = {milliseconds / 1000, milliseconds % 1000 * 1000000};
    atomic_store(&stop, 0);
    clock_gettime(CLOCK_MONOTONIC, &begun);
    WANT(pthread_create(&ids[0], NULL, read_on, &sides[0]) == 0);
    WANT(pthread_create(&ids[1], NULL, write_on, &sides[1]) == 0);
    nanosleep(&pause, NULL);
    atomic_store(&stop, 1);
    for (int at = 0; at < 2; at++)
        WANT(pthread_join(ids[at], NULL) == 0);
    clock_gettime(CLOCK_MONOTONIC, &ended);
    double seconds = (double)(ended.tv_sec - begun.tv_sec) + (double)(ended.tv_nsec - begun.tv_nsec) / 1e9;
    printf("%s, succ: %.0f, ins and del: %.0f\n", how, (double)sides[0].made / seconds, (double)sides[1].made / seconds);
    for (int at = 0; at < 2; at++)
        relc_close_session(sides[at].session);
    relc_close_waiting(waiting);
    relc_close_store(store);
}

/* where a line that begins so begins */
static char *line_of(char *text, const char *word)
{
    for (char *line = text; line != NULL; line = strchr(line, '\n')) {
        line += *line == '\n';
        if (strncmp(line, word, strlen(word)) == 0)
            return line;
    }
    return NULL;
}

int main(int count, char **words)
{
    WANT(count == 5);
    FILE *file = fopen(words[1], "rb");
    char *text = calloc(1, ROOM), *plans = calloc(1, ROOM);
    WANT(file != NULL && text != NULL && plans != NULL && fread(text, 1, ROOM - 1, file) > 0);
    fclose(file);
    char *end = line_of(text, "end\n");
    WANT(end != NULL);
    char *first = line_of(end, "plan "), *work = line_of(end, "work ");
    WANT(first != NULL && work != NULL && first < work);
    memcpy(plans, first, (size_t)(work - first));
    strcat(plans, "end\n");
    end[4] = 0;
    uint64_t nodes = strtoull(words[2], NULL, 10), degree = strtoull(words[3], NULL, 10);
    long milliseconds = strtol(words[4], NULL, 10);
    WANT(nodes > 0 && degree > 0 && degree < RELC_PAGE / 4 && milliseconds > 0);
    measure("planned", text, "", nodes, degree, milliseconds);
    measure("by hand", text, plans, nodes, degree, milliseconds);
    free(text);
    free(plans);
    return 0;
}
