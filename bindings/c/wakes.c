/* Tests that whoever gives stripes back, and rings, wakes those that wait. A nap takes a minute
 * here, so that whoever is back soon was woken. Prints one line and ends with 0 where all is as it
 * should be. */
#define RELC_NAP 60000000000L
#define RELC_PATIENCE RELC_NAP
#include "relc_wait.c"

#include <stdio.h>
#include <string.h>

/* seconds: well below a nap, and more than a busy machine takes to run a thread again */
#define SOON 30

#define CHECK(what)                                                        \
    do {                                                                   \
        if (!(what)) {                                                     \
            fprintf(stderr, "%s:%d: %s\n", __FILE__, __LINE__, #what);     \
            exit(1);                                                       \
        }                                                                  \
    } while (0)

static const char TEXT[] =
    "relc 1\ncol key num\ncol value num\nfd key -> value\n"
    "node root\nnode k key value\nedge e1 root k hash key\n"
    "lock k1 1 key\nplace e1 k1\nop put insert key\nend\n";

typedef uint32_t call_by(relc_waiting *, relc_session *, relc_frame *);

/* who stands in the way, who waits for it, and a third one */
static relc_session *holder, *waiter, *third;
static relc_waiting *waiting;

/* puts the one key that all want */
static const relc_frame PUT = {.op = 0, .count = 2, .values = {1, 10}};

static void commit(void)
{
    relc_frame frame = PUT;
    CHECK(relc_commit(holder, &frame) == RELC_DONE);
    relc_ring(waiting);
}

static void cancel(void)
{
    relc_frame frame = PUT;
    CHECK(relc_cancel(holder, &frame) == RELC_DONE);
    relc_ring(waiting);
}

static void close_holder(void)
{
    relc_close_session(holder);
    holder = NULL;
    relc_ring(waiting);
}

/* the commit is told to nobody; the call that another one makes then is */
static void commit_and_call(void)
{
    relc_frame frame = PUT;
    CHECK(relc_commit(holder, &frame) == RELC_DONE);
    CHECK(relc_call(waiting, third, &frame) == RELC_DONE);
}

/* likewise; and the call that another one wants to prepare is refused, and told */
static void commit_and_be_refused(void)
{
    relc_frame frame = PUT, wrong = {.op = 99};
    CHECK(relc_commit(holder, &frame) == RELC_DONE);
    CHECK(relc_begin_waiting(waiting, third, &wrong) == RELC_OPERATION);
}

static void *wait_for_holder(void *of)
{
    relc_frame frame = PUT;
    CHECK((*(call_by **)of)(waiting, waiter, &frame) == RELC_DONE);
    return NULL;
}

/* puts that key and another one as a group */
static uint32_t call_group(relc_waiting *waiting, relc_session *session, relc_frame *frame)
{
    relc_frame frames[2] = {*frame, *frame};
    frames[1].values[0]++;
    return relc_call_group(waiting, session, frames, 2);
}

static uint32_t begin_group(relc_waiting *waiting, relc_session *session, relc_frame *frame)
{
    relc_frame frames[2] = {*frame, *frame};
    frames[1].values[0]++;
    return relc_begin_group_waiting(waiting, session, frames, 2);
}

/* opens a group that may put any key, and puts that one */
static uint32_t open_group(relc_waiting *waiting, relc_session *session, relc_frame *frame)
{
    relc_frame any = *frame;
    any.count = 0;
    CHECK(relc_open_group_waiting(waiting, session, &any, 1) == RELC_DONE);
    return relc_call_open(session, frame);
}

/* Lets a thread fall asleep behind a prepared call, and sees that it is back soon after
 * `let_go`. */
static void test_waking(call_by *call, void (*let_go)(void))
{
    relc_open_frame open = {.passes = 3, .limit = 2};
    relc_store *store = NULL;
    CHECK(relc_open((const uint8_t *)TEXT, strlen(TEXT), &open, &store) == RELC_DONE);
    CHECK(relc_open_session(store, &holder) == RELC_DONE);
    CHECK(relc_open_session(store, &waiter) == RELC_DONE);
    CHECK(relc_open_session(store, &third) == RELC_DONE);
    relc_close_store(store);
    waiting = relc_open_waiting();
    CHECK(waiting != NULL);
    relc_frame frame = PUT;
    CHECK(relc_begin(holder, &frame) == RELC_DONE);

    pthread_t thread;
    struct timespec moment = {.tv_nsec = 100000000L}, from, to;
    CHECK(pthread_create(&thread, NULL, wait_for_holder, &call) == 0);
    do
        nanosleep(&moment, NULL);
    while (atomic_load(&waiting->waiters) == 0);
    nanosleep(&moment, NULL); /* by now it sleeps */
    clock_gettime(CLOCK_MONOTONIC, &from);
    let_go();
    CHECK(pthread_join(thread, NULL) == 0);
    clock_gettime(CLOCK_MONOTONIC, &to);
    CHECK(to.tv_sec - from.tv_sec < SOON);

    relc_close_session(holder);
    relc_close_session(waiter);
    relc_close_session(third);
    relc_close_waiting(waiting);
}

int main(void)
{
    call_by *const calls[] = {relc_call, relc_begin_waiting, call_group, begin_group, open_group};
    void (*const ways[])(void) = {
        commit, cancel, close_holder, commit_and_call, commit_and_be_refused};
    for (size_t call = 0; call < 5; call++) {
        for (size_t way = 0; way < 5; way++)
            test_waking(calls[call], ways[way]);
    }
    puts("relc_wait.h: 25 passed, 0 failed");
    return 0;
}
