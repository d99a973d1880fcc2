/* Tests that more threads than a store has passes open sessions of it, call, and give them back, all at the same time,
 * and look operations up meanwhile; and that one thread looks shapes and plans up while another one opens sessions and
 * gives them back. Prints two lines, and ends with 0 where all is as it should be. */
#include "relc_wait.h"

#include <pthread.h>
#include <sched.h>
#include <stdatomic.h>
#include <stdio.h>
#include <stdlib.h>
#include <string.h>

enum { THREADS = 8, PASSES = 3, TURNS = 400, KEYS = 16, LOOKS = 20000 };

#define CHECK(what)                                                        \
    do {                                                                   \
        if (!(what)) {                                                     \
            fprintf(stderr, "%s:%d: %s\n", __FILE__, __LINE__, #what);     \
            exit(1);                                                       \
        }                                                                  \
    } while (0)

static const char TEXT[] =
    "relc 1\ncol key num\ncol value num\nfd key -> value\n"
    "node root\nnode k key value\nedge e1 root k hash key\nlock k1 4 key\nplace e1 k1\n"
    "op put insert key\nop drop remove key\nop all query -> key value\nend\n";

static const char *const NAMES[] = {"put", "drop", "all"};
static const char *const SHAPES[] = {"insert key", "remove key", "query -> key value"};
enum { PUT, DROP, ALL, OPERATIONS };

static relc_waiting *waiting;
static relc_store *store;
static pthread_barrier_t start;

struct server {
    pthread_t thread;
    uint64_t number, added, removed, refused;
};

static uint32_t number_of(const char *name)
{
    relc_operation_frame frame = {.length = (uint32_t)strlen(name)};
    memcpy(frame.name, name, frame.length);
    CHECK(relc_operation_in_turn(waiting, store, &frame) == RELC_DONE);
    return frame.op;
}

/* A session, once one is left: three have one at a time. */
static relc_session *open_session(struct server *server)
{
    relc_session *session = NULL;
    uint32_t code;
    while ((code = relc_open_session_in_turn(waiting, store, &session)) == RELC_NONE_LEFT) {
        server->refused++;
        sched_yield();
    }
    CHECK(code == RELC_DONE);
    return session;
}

/* Puts a key and drops another one, and leaves a third one prepared, which giving the session back cancels. */
static void serve(struct server *server, relc_session *session, uint64_t turn)
{
    uint64_t key = (turn * THREADS + server->number) * 7;
    relc_frame frame = {.op = number_of(NAMES[PUT]), .count = 2, .values = {key % KEYS, turn}};
    CHECK(relc_call(waiting, session, &frame) == RELC_DONE);
    server->added += frame.kind == RELC_INSERTED;
    frame = (relc_frame){.op = number_of(NAMES[DROP]), .count = 1, .values = {(key + 3) % KEYS}};
    CHECK(relc_call(waiting, session, &frame) == RELC_DONE);
    server->removed += frame.kind == RELC_REMOVED;
    frame = (relc_frame){.op = number_of(NAMES[PUT]), .count = 2, .values = {KEYS + key % KEYS, turn}};
    CHECK(relc_begin_waiting(waiting, session, &frame) == RELC_DONE);
    /* others come, and find fewer sessions left */
    sched_yield();
}

static void *work(void *of)
{
    struct server *server = of;
    pthread_barrier_wait(&start);
    for (uint64_t turn = 0; turn < TURNS; turn++) {
        relc_session *session = open_session(server);
        serve(server, session, turn);
        CHECK(relc_give_back_in_turn(waiting, store, session) == RELC_DONE);
    }
    return NULL;
}

/* ---- looking up beside sessions that come and go */

static atomic_int is_over;

static void *open_and_give_back(void *of)
{
    unsigned long *opened = of;
    while (!atomic_load(&is_over)) {
        relc_session *session = NULL;
        CHECK(relc_open_session_in_turn(waiting, store, &session) == RELC_DONE);
        CHECK(relc_give_back_in_turn(waiting, store, session) == RELC_DONE);
        ++*opened;
    }
    return NULL;
}

/* Each shape is the operation with its name, and the plans are those that nobody disturbed. */
static void test_looks(void)
{
    static relc_text_page before;
    unsigned long opened = 0;
    pthread_t thread;
    CHECK(relc_plans(store, &before) == RELC_DONE && before.count == before.length);
    CHECK(pthread_create(&thread, NULL, open_and_give_back, &opened) == 0);
    for (size_t look = 0; look < LOOKS; look++) {
        size_t at = look % OPERATIONS;
        const char *line = SHAPES[at];
        relc_operation_frame frame = {0};
        CHECK(relc_shape_in_turn(waiting, store, (const uint8_t *)line, strlen(line), &frame) == RELC_DONE);
        CHECK(frame.op == number_of(NAMES[at]));
        CHECK(relc_shape_in_turn(waiting, store, (const uint8_t *)"update key", 10, &frame) == RELC_OPERATION);
        relc_text_page page = {0};
        CHECK(relc_plans_in_turn(waiting, store, &page) == RELC_DONE && page.count == before.count);
        CHECK(memcmp(page.bytes, before.bytes, page.count) == 0);
    }
    atomic_store(&is_over, 1);
    CHECK(pthread_join(thread, NULL) == 0);
    printf("%d shapes and plans beside %lu sessions: 1 passed, 0 failed\n", LOOKS, opened);
}

int main(void)
{
    static struct server servers[THREADS];
    relc_open_frame opening = {.passes = PASSES, .limit = 1ull << 48};
    CHECK(relc_open((const uint8_t *)TEXT, sizeof TEXT - 1, &opening, &store) == RELC_DONE);
    CHECK((waiting = relc_open_waiting()) != NULL);
    CHECK(pthread_barrier_init(&start, NULL, THREADS) == 0);
    uint64_t added = 0, removed = 0, refused = 0;
    for (size_t at = 0; at < THREADS; at++) {
        servers[at].number = at;
        CHECK(pthread_create(&servers[at].thread, NULL, work, &servers[at]) == 0);
    }
    for (size_t at = 0; at < THREADS; at++) {
        CHECK(pthread_join(servers[at].thread, NULL) == 0);
        added += servers[at].added;
        removed += servers[at].removed;
        refused += servers[at].refused;
    }
    /* what is there is what was put and not dropped, and nothing that was prepared */
    relc_session *session = open_session(&servers[0]);
    relc_frame frame = {.op = number_of(NAMES[ALL])};
    CHECK(relc_call(waiting, session, &frame) == RELC_DONE);
    CHECK(frame.kind == RELC_ROWS && frame.number == added - removed);
    for (frame.row = 0; frame.row < frame.number; frame.row++) {
        CHECK(relc_row(session, &frame) == RELC_DONE);
        CHECK(frame.cells[0] < KEYS);
    }
    CHECK(relc_give_back_in_turn(waiting, store, session) == RELC_DONE);
    test_looks();
    relc_close_store(store);
    relc_close_waiting(waiting);
    pthread_barrier_destroy(&start);
    printf("%d sessions of %d threads by %d passes (none was left %llu times): 1 passed, 0 failed\n", THREADS * TURNS,
        THREADS, PASSES, (unsigned long long)refused);
    return 0;
}
