/* Tests that a thread which is cancelled while it waits comes out of the wait first, with its answer, and leaves nothing
 * behind for which others would wait. Prints one line, and ends with 0 where all is as it should be; where somebody
 * hangs, an alarm ends it. */
#include "relc_wait.c"

#include <sched.h>
#include <stdio.h>
#include <string.h>
#include <unistd.h>

/* seconds, after which somebody hangs; nanoseconds, by which a thread is asleep, and of a wait with an end */
#define HANGS 60
#define ASLEEP 50000000L
#define SHORT 200000000u

#define CHECK(what)                                                        \
    do {                                                                   \
        if (!(what)) {                                                     \
            fprintf(stderr, "%s:%d: %s\n", __FILE__, __LINE__, #what);     \
            exit(1);                                                       \
        }                                                                  \
    } while (0)

static const char TEXT[] =
    "relc 1\ncol key num\ncol value num\nfd key -> value\n"
    "node root\nnode k key value\nedge e1 root k hash key\n"
    "lock k1 1 key\nplace e1 k1\nop put insert key\nend\n";

static relc_waiting *waiting;
static relc_session *holder, *waiter, *third;

/* what the thread that is cancelled asks, for how long it waits, and what it is answered */
struct asked {
    uint32_t (*asks)(relc_waiting *, relc_session *, relc_frame *, uint64_t);
    uint64_t key, nanoseconds;
    atomic_int code, begun;
};

static void nap_awhile(void)
{
    nanosleep(&(struct timespec){.tv_nsec = ASLEEP}, NULL);
}

static relc_frame put(uint64_t key)
{
    return (relc_frame){.op = 0, .count = 2, .values = {key, key}};
}

static void *ask_and_end(void *of)
{
    struct asked *asked = of;
    relc_frame frame = put(asked->key);
    atomic_store(&asked->begun, 1);
    uint32_t code = asked->asks(waiting, waiter, &frame, asked->nanoseconds);
    atomic_store(&asked->code, (int)code);
    pthread_testcancel();
    return NULL;
}

/* The same by a thread that may not be cancelled: it may not be behind the call either. */
static void *ask_and_stay(void *of)
{
    int state;
    CHECK(pthread_setcancelstate(PTHREAD_CANCEL_DISABLE, &state) == 0);
    return ask_and_end(of);
}

static pthread_t start(void *(*thread)(void *), struct asked *asked)
{
    pthread_t started;
    atomic_store(&asked->code, -1);
    CHECK(pthread_create(&started, NULL, thread, asked) == 0);
    return started;
}

/* Who waits for a stripe that is held is cancelled: it has its answer, and is no waiter any more. */
static void test_nap(void *(*thread)(void *), int is_ended, struct asked *asked, uint32_t code)
{
    relc_frame held = put(100);
    void *end;
    CHECK(relc_begin(holder, &held) == RELC_DONE);
    pthread_t started = start(thread, asked);
    while (atomic_load(&waiting->waiters) == 0)
        nap_awhile();
    CHECK(pthread_cancel(started) == 0);
    nap_awhile();
    if (code == RELC_DONE) {
        CHECK(atomic_load(&asked->code) == -1);
        CHECK(relc_cancel(holder, &held) == RELC_DONE);
        relc_ring(waiting);
    }
    CHECK(pthread_join(started, &end) == 0);
    CHECK(atomic_load(&asked->code) == (int)code && (end == PTHREAD_CANCELED) == is_ended);
    CHECK(atomic_load(&waiting->waiters) == 0 && atomic_load(&waiting->taken) == 0);
    relc_frame frame = put(asked->key);
    uint32_t after = relc_call_until(waiting, third, &frame, SHORT);
    CHECK(after == code);
    if (code != RELC_DONE)
        CHECK(relc_cancel(holder, &held) == RELC_DONE);
    CHECK(relc_call_until(waiting, waiter, &frame, SHORT) != RELC_BUSY);
}

/* Who stands back while another one has the right of way is cancelled. */
static void test_stand_back(struct asked *asked)
{
    void *end;
    CHECK(take_right_of_way(waiting));
    pthread_t started = start(ask_and_end, asked);
    while (atomic_load(&asked->begun) == 0)
        sched_yield();
    CHECK(pthread_cancel(started) == 0);
    CHECK(pthread_join(started, &end) == 0);
    CHECK(atomic_load(&asked->code) == RELC_DONE && end == PTHREAD_CANCELED);
    give_right_of_way(waiting);
    relc_frame frame = put(asked->key);
    CHECK(relc_call_until(waiting, third, &frame, SHORT) == RELC_DONE && frame.kind == RELC_PRESENT);
}

int main(void)
{
    relc_open_frame opening = {.passes = 3, .limit = 1000};
    relc_store *store;
    alarm(HANGS);
    CHECK(relc_open((const uint8_t *)TEXT, strlen(TEXT), &opening, &store) == RELC_DONE);
    CHECK(relc_open_session(store, &holder) == RELC_DONE && relc_open_session(store, &waiter) == RELC_DONE);
    CHECK(relc_open_session(store, &third) == RELC_DONE && (waiting = relc_open_waiting()) != NULL);
    struct asked forever = {.asks = relc_call_until, .key = 1, .nanoseconds = UINT64_MAX};
    struct asked briefly = {.asks = relc_call_until, .key = 2, .nanoseconds = SHORT};
    test_nap(ask_and_end, 1, &forever, RELC_DONE);
    test_nap(ask_and_stay, 0, &forever, RELC_DONE);
    test_nap(ask_and_end, 1, &briefly, RELC_BUSY);
    struct asked behind = {.asks = relc_call_until, .key = 3, .nanoseconds = UINT64_MAX};
    test_stand_back(&behind);
    relc_close_session(holder);
    relc_close_session(waiter);
    relc_close_session(third);
    relc_close_store(store);
    relc_close_waiting(waiting);
    puts("cancelled threads: 4 passed, 0 failed");
    return 0;
}
