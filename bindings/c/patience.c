/* Tests waits that have an end, and that a writer gets on beside readers that leave no gap. Prints two lines, and ends
 * with 0 where all is as it should be. */
#include "relc_wait.h"

#include <pthread.h>
#include <sched.h>
#include <stdatomic.h>
#include <stdio.h>
#include <stdlib.h>
#include <string.h>
#include <time.h>

#define READERS 7
#define KEYS 200
#define CHANGES 50

/* nanoseconds: what a wait of some milliseconds takes at most on a busy machine, and what all changes do; that wait;
 * and what lies between two changes */
#define SOON 30000000000u
#define SHORT 20000000u
#define PAUSE 2000000

#define CHECK(what)                                                        \
    do {                                                                   \
        if (!(what)) {                                                     \
            fprintf(stderr, "%s:%d: %s\n", __FILE__, __LINE__, #what);     \
            exit(1);                                                       \
        }                                                                  \
    } while (0)

/* all keys on one stripe */
static const char TEXT[] =
    "relc 1\ncol key num\ncol value num\ncol list num\nfd key -> value list\n"
    "node root\nnode l list\nnode k key value list\nedge e1 root l hash list\nedge e2 l k ordered key\n"
    "lock k1 1 list\nplace e1 k1\nplace e2 k1\n"
    "op put insert list key\nop drop remove list key\nop all query list -> key value\nend\n";

enum { PUT, DROP, ALL };

static relc_waiting *waiting;
static atomic_int is_over;

static uint64_t now(void)
{
    struct timespec at;
    clock_gettime(CLOCK_MONOTONIC, &at);
    return (uint64_t)at.tv_sec * 1000000000u + (uint64_t)at.tv_nsec;
}

static relc_session *open_session(relc_store *store)
{
    relc_session *session;
    CHECK(relc_open_session(store, &session) == RELC_DONE);
    return session;
}

/* an insert: the columns are key, value, list */
static relc_frame put(uint64_t key)
{
    return (relc_frame){.op = PUT, .count = 3, .values = {key, key, 1}};
}

static relc_frame drop(uint64_t key)
{
    return (relc_frame){.op = DROP, .count = 2, .values = {1, key}};
}

/* ---- waits with an end */

static void check_busy(uint32_t code, const relc_frame *frame, uint64_t since, uint64_t nanoseconds)
{
    uint64_t waited = now() - since;
    CHECK(code == RELC_BUSY && frame->found == RELC_WRITER && frame->who == 0);
    CHECK(waited >= nanoseconds && waited < SOON);
}

static void test_deadlines(relc_session *holder, relc_session *waiter)
{
    static const uint64_t ENDS[] = {0, SHORT};
    relc_frame held = put(1000), frame = put(1001), group[2] = {put(1002), put(1003)};
    relc_frame declared[1] = {{.op = PUT, .count = 0}};
    CHECK(relc_begin(holder, &held) == RELC_DONE);
    for (size_t at = 0; at < 2; at++) {
        uint64_t end = ENDS[at], since = now();
        check_busy(relc_call_until(waiting, waiter, &frame, end), &frame, since, end);
        since = now();
        check_busy(relc_begin_waiting_until(waiting, waiter, &frame, end), &frame, since, end);
        since = now();
        check_busy(relc_call_group_until(waiting, waiter, group, 2, end), group, since, end);
        since = now();
        check_busy(relc_begin_group_waiting_until(waiting, waiter, group, 2, end), group, since, end);
        since = now();
        check_busy(relc_open_group_waiting_until(waiting, waiter, declared, 1, end), declared, since, end);
    }
    CHECK(relc_cancel(holder, &held) == RELC_DONE);
    relc_ring(waiting);
    CHECK(relc_call_until(waiting, waiter, &frame, 0) == RELC_DONE && frame.kind == RELC_INSERTED);
    frame = drop(1001);
    CHECK(relc_call_until(waiting, waiter, &frame, UINT64_MAX) == RELC_DONE && frame.kind == RELC_REMOVED);
}

/* ---- a writer beside readers */

struct reader {
    relc_session *session;
    pthread_t thread;
    atomic_ulong calls;
};

static void *read_on(void *of)
{
    struct reader *reader = of;
    relc_frame frame = {.op = ALL, .count = 1, .values = {1}};
    while (!atomic_load(&is_over)) {
        CHECK(relc_call(waiting, reader->session, &frame) == RELC_DONE);
        CHECK(frame.kind == RELC_ROWS && (frame.number == KEYS || frame.number == KEYS + 1));
        atomic_fetch_add(&reader->calls, 1);
    }
    return NULL;
}

static void test_writer(relc_store *store, relc_session *writer)
{
    static struct reader readers[READERS];
    for (uint64_t key = 0; key < KEYS; key++) {
        relc_frame frame = put(key);
        CHECK(relc_call(waiting, writer, &frame) == RELC_DONE);
    }
    for (size_t at = 0; at < READERS; at++) {
        readers[at].session = open_session(store);
        CHECK(pthread_create(&readers[at].thread, NULL, read_on, &readers[at]) == 0);
    }
    for (size_t at = 0; at < READERS; at++)
        while (atomic_load(&readers[at].calls) == 0)
            sched_yield();
    uint64_t since = now(), worst = 0;
    for (size_t change = 0; change < CHANGES; change++) {
        /* a writer that comes again at once finds those asleep that it kept out */
        nanosleep(&(struct timespec){.tv_nsec = PAUSE}, NULL);
        uint64_t before = now();
        relc_frame frame = change % 2 == 0 ? put(KEYS) : drop(KEYS);
        CHECK(relc_call(waiting, writer, &frame) == RELC_DONE);
        CHECK(frame.kind == (change % 2 == 0 ? RELC_INSERTED : RELC_REMOVED));
        uint64_t took = now() - before;
        worst = took > worst ? took : worst;
    }
    uint64_t took = now() - since, calls = 0;
    atomic_store(&is_over, 1);
    for (size_t at = 0; at < READERS; at++) {
        CHECK(pthread_join(readers[at].thread, NULL) == 0);
        calls += atomic_load(&readers[at].calls);
        relc_close_session(readers[at].session);
    }
    CHECK(took < SOON);
    printf("%d changes beside %d readers took %.0f ms, the worst %.0f, while they made %llu calls\n", CHANGES, READERS,
        (double)took / 1e6, (double)worst / 1e6, (unsigned long long)calls);
}

int main(void)
{
    relc_open_frame opening = {.passes = READERS + 2, .limit = 1ull << 48};
    relc_store *store;
    CHECK(relc_open((const uint8_t *)TEXT, sizeof TEXT - 1, &opening, &store) == RELC_DONE);
    CHECK((waiting = relc_open_waiting()) != NULL);
    relc_session *holder = open_session(store), *waiter = open_session(store);
    test_deadlines(holder, waiter);
    test_writer(store, waiter);
    relc_close_session(holder);
    relc_close_session(waiter);
    relc_close_store(store);
    relc_close_waiting(waiting);
    printf("waits with an end, and a writer beside readers: 2 passed, 0 failed\n");
    return 0;
}
