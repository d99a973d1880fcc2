/* Tests that a library which build.sh --check made tells handles that are used wrongly: each wrong use is made by a
 * process of its own, which has to be aborted, and to say what is wrong. Prints one line, and ends with 0 where all is
 * as it should be. */
#include "relc.h"

#include <pthread.h>
#include <signal.h>
#include <stdio.h>
#include <stdlib.h>
#include <string.h>
#include <sys/wait.h>
#include <unistd.h>

#define CHECK(what)                                                        \
    do {                                                                   \
        if (!(what)) {                                                     \
            fprintf(stderr, "%s:%d: %s\n", __FILE__, __LINE__, #what);     \
            exit(1);                                                       \
        }                                                                  \
    } while (0)

/* seconds after which two threads have met in one session, also on a busy machine */
enum { SOON = 60 };

static const char TEXT[] =
    "relc 1\ncol key num\ncol value num\nfd key -> value\n"
    "node root\nnode k key value\nedge e1 root k hash key\nlock k1 1 key\nplace e1 k1\n"
    "op put insert key\nop find query key -> value\nend\n";

static relc_store *store, *other;
static relc_session *session;
static relc_frame frame = {.op = 1, .count = 1, .values = {1}};

static relc_store *open_store(void)
{
    relc_store *opened = NULL;
    relc_open_frame opening = {.passes = 4, .limit = 1ull << 48};
    CHECK(relc_open((const uint8_t *)TEXT, sizeof TEXT - 1, &opening, &opened) == RELC_DONE);
    return opened;
}

static void call_by_null(void)
{
    relc_try_call(NULL, &frame);
}

static void call_with_no_frame(void)
{
    relc_try_call(session, NULL);
}

static void call_by_a_closed_one(void)
{
    relc_close_session(session);
    relc_try_call(session, &frame);
}

static void call_by_one_that_was_given_back(void)
{
    relc_give_back(store, session);
    relc_row(session, &frame);
}

static void call_by_a_store(void)
{
    relc_begin((relc_session *)store, &frame);
}

static void close_twice(void)
{
    relc_close_store(store);
    relc_close_store(store);
}

static void open_by_a_session(void)
{
    relc_open_session((relc_store *)session, &session);
}

static void give_back_to_another(void)
{
    relc_give_back(other, session);
}

static relc_session *begun_by(relc_store *of)
{
    relc_session *begun = NULL;
    CHECK(relc_open_session(of, &begun) == RELC_DONE);
    return begun;
}

static void tell_one_of_another(void)
{
    relc_tell(session, begun_by(other));
}

static void tell_itself(void)
{
    relc_tell(session, session);
}

static void call_an_operation_of_another(void)
{
    relc_operation_frame asked = {.length = 3, .name = "put"};
    CHECK(relc_operation(other, &asked) == RELC_DONE);
    relc_frame put = {.op = asked.op, .count = 2, .values = {1, 2}};
    relc_try_call(session, &put);
}

/* the store, with its session given back, and closed */
static relc_closed *closed_store(void)
{
    relc_closed *closed = NULL;
    CHECK(relc_give_back(store, session) == RELC_DONE && relc_close(store, &closed) == RELC_DONE);
    return closed;
}

static void resume(relc_closed *closed)
{
    relc_store *resumed = NULL;
    relc_open_frame opening = {.passes = 4, .limit = 1ull << 48};
    relc_resume(closed, (const uint8_t *)TEXT, sizeof TEXT - 1, NULL, 0, NULL, 0, &opening, &resumed);
}

static void open_by_one_that_was_closed(void)
{
    closed_store();
    relc_open_session(store, &session);
}

static void close_one_that_was_closed(void)
{
    relc_closed *closed = closed_store();
    relc_close((relc_store *)closed, &closed);
}

static void resume_twice(void)
{
    relc_closed *closed = closed_store();
    resume(closed);
    resume(closed);
}

static void resume_what_was_dropped(void)
{
    relc_closed *closed = closed_store();
    relc_drop_closed(closed);
    resume(closed);
}

static void drop_what_goes_on(void)
{
    relc_closed *closed = closed_store();
    resume(closed);
    relc_drop_closed(closed);
}

static void drop_a_store(void)
{
    relc_drop_closed((relc_closed *)store);
}

static void *call_on(void *unused)
{
    relc_frame mine = frame;
    (void)unused;
    for (;;)
        relc_try_call(session, &mine);
    return NULL;
}

static void call_on_two_threads(void)
{
    pthread_t thread;
    alarm(SOON);
    CHECK(pthread_create(&thread, NULL, call_on, NULL) == 0);
    call_on(NULL);
}

static const struct {
    void (*use)(void);
    const char *told;
} WRONG[] = {
    {call_by_null, "relc_try_call: a pointer is NULL\n"},
    {call_with_no_frame, "relc_try_call: a pointer is NULL\n"},
    {call_by_a_closed_one, "relc_try_call: this is no open session\n"},
    {call_by_one_that_was_given_back, "relc_row: this is no open session\n"},
    {call_by_a_store, "relc_begin: this is no open session\n"},
    {close_twice, "relc_close_store: this is no open store\n"},
    {open_by_a_session, "relc_open_session: this is no open store\n"},
    {give_back_to_another, "relc_give_back: the session is of another store\n"},
    {tell_one_of_another, "relc_tell: the session is of another store\n"},
    {tell_itself, "relc_tell: another call uses the session\n"},
    {call_an_operation_of_another, "relc_try_call: the operation is of another store\n"},
    {call_on_two_threads, "relc_try_call: another call uses the session\n"},
    {open_by_one_that_was_closed, "relc_open_session: this is no open store\n"},
    {close_one_that_was_closed, "relc_close: this is no open store\n"},
    {resume_twice, "relc_resume: this is no closed store\n"},
    {resume_what_was_dropped, "relc_resume: this is no closed store\n"},
    {drop_what_goes_on, "relc_drop_closed: this is no closed store\n"},
    {drop_a_store, "relc_drop_closed: this is no closed store\n"},
};
enum { COUNT = sizeof WRONG / sizeof *WRONG };

/* What the process says that makes the wrong use, and whether it was aborted. */
static int is_aborted(void (*use)(void), char *told, size_t room)
{
    int ends[2], status;
    CHECK(pipe(ends) == 0);
    pid_t child = fork();
    CHECK(child >= 0);
    if (child == 0) {
        dup2(ends[1], STDERR_FILENO);
        close(ends[0]);
        close(ends[1]);
        use();
        _exit(0);
    }
    close(ends[1]);
    size_t length = 0;
    ssize_t more;
    while (length < room - 1 && (more = read(ends[0], told + length, room - 1 - length)) > 0)
        length += (size_t)more;
    told[length] = 0;
    close(ends[0]);
    CHECK(waitpid(child, &status, 0) == child);
    return WIFSIGNALED(status) && WTERMSIG(status) == SIGABRT;
}

int main(void)
{
    char told[256];
    store = open_store();
    other = open_store();
    CHECK(relc_open_session(store, &session) == RELC_DONE);
    for (size_t at = 0; at < COUNT; at++) {
        CHECK(is_aborted(WRONG[at].use, told, sizeof told));
        CHECK(strcmp(told, WRONG[at].told) == 0);
    }
    /* what is used as it should be is as it was */
    relc_operation_frame asked = {.length = 4, .name = "find"};
    CHECK(relc_operation(store, &asked) == RELC_DONE);
    frame.op = asked.op;
    CHECK(relc_try_call(session, &frame) == RELC_DONE && frame.kind == RELC_ROWS);
    relc_close_session(session);
    relc_close_store(other);
    relc_close_store(store);
    printf("wrong uses of handles: %d passed, 0 failed\n", COUNT);
    return 0;
}
