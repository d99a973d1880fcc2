/* A queue of jobs that four threads fill and work off, and a fifth one that watches. Its specification, jobs.relc, has
 * the job by its number, and the queue of each state and priority; the program reads it from the file that its one
 * word names.
 *
 * A job that is started goes from one queue to another: it is taken out as one that waits, and put in as one that
 * runs, in one group. So of all threads that want a job one gets it, and whoever lists the jobs finds each of them
 * once, in one state.
 *
 *     jobs FILE
 */
#include "relc_wait.h"

#include <pthread.h>
#include <stdatomic.h>
#include <stdio.h>
#include <stdlib.h>
#include <string.h>

enum { WORKERS = 4, SUBMITTED = 500, JOBS = WORKERS * SUBMITTED, PRIORITIES = 8, MAX_TEXT = 1 << 16 };

/* states of a job */
enum { WAITING, RUNNING };

/* the operations, in the order of their names below, and their numbers in the store */
enum { SUBMIT, TAKE, JOB, QUEUE, ALL, OPERATIONS };
static const char *const NAMES[OPERATIONS] = {"submit", "take", "job", "queue", "all"};
static uint32_t numbers[OPERATIONS];
static relc_waiting *waiting;

/* what the watcher compares with: how many jobs were submitted, and how many are done, or about to be */
static atomic_uint submitted, ending;

/* how often each job was run */
static atomic_uint runs[JOBS];

struct worker {
    pthread_t thread;
    relc_session *session;
    relc_frame frames[2];
    uint64_t number, started, late;
};

static void check(int holds, const char *what)
{
    if (!holds) {
        fprintf(stderr, "jobs: %s\n", what);
        exit(1);
    }
}

static uint64_t priority_of(uint64_t id)
{
    return id * 0x9e3779b97f4a7c15 >> 32 & (PRIORITIES - 1);
}

static uint64_t payload_of(uint64_t id)
{
    return id * id;
}

static void ask(relc_frame *frame, int op, uint32_t count, const uint64_t *values)
{
    frame->op = numbers[op];
    frame->count = count;
    memcpy(frame->values, values, count * sizeof *values);
}

/* Calls an operation, and waits for others; what its kind is. */
static uint32_t call(struct worker *worker, int op, uint32_t count, const uint64_t *values)
{
    ask(worker->frames, op, count, values);
    check(relc_call(waiting, worker->session, worker->frames) == RELC_DONE, "no call is refused");
    return worker->frames->kind;
}

static void submit(struct worker *worker, uint64_t id)
{
    const uint64_t job[] = {id, WAITING, priority_of(id), payload_of(id)};
    check(call(worker, SUBMIT, 4, job) == RELC_INSERTED, "a number is submitted once");
    atomic_fetch_add(&submitted, 1);
}

/* Puts a job that waits among those that run; whether no other thread was there before. */
static int start(struct worker *worker, uint64_t id)
{
    relc_frame *frames = worker->frames;
    ask(&frames[0], TAKE, 2, (const uint64_t[]){id, WAITING});
    ask(&frames[1], SUBMIT, 4, (const uint64_t[]){id, RUNNING, priority_of(id), payload_of(id)});
    check(relc_begin_group_waiting(waiting, worker->session, frames, 2) == RELC_DONE, "no group is refused");
    int is_mine = frames[0].kind == RELC_REMOVED;
    if (is_mine) {
        check(frames[1].kind == RELC_INSERTED, "what was taken out can be put in");
        check(relc_commit(worker->session, frames) == RELC_DONE, "what is prepared is committed");
    } else {
        check(relc_cancel(worker->session, frames) == RELC_DONE, "what is prepared is cancelled");
    }
    relc_ring(waiting);
    return is_mine;
}

static void run(struct worker *worker, uint64_t id)
{
    check(call(worker, JOB, 1, &id) == RELC_ROWS && worker->frames->number == 1, "a job that runs is there");
    check(relc_row(worker->session, worker->frames) == RELC_DONE, "there is such a row");
    check(worker->frames->cells[0] == RUNNING && worker->frames->cells[2] == payload_of(id), "it is that job");
    atomic_fetch_add(&runs[id], 1);
    atomic_fetch_add(&ending, 1);
    check(call(worker, TAKE, 2, (const uint64_t[]){id, RUNNING}) == RELC_REMOVED, "nobody else ends a job");
}

/* Starts and runs the first job of the first queue in which one waits; whether there was one. */
static int work_off(struct worker *worker)
{
    for (uint64_t priority = 0; priority < PRIORITIES; priority++) {
        check(call(worker, QUEUE, 2, (const uint64_t[]){WAITING, priority}) == RELC_ROWS, "a queue is listed");
        worker->frames->row = 0;
        if (relc_row(worker->session, worker->frames) == RELC_NO_ROW)
            continue;
        uint64_t id = worker->frames->cells[0];
        check(priority_of(id) == priority, "a job waits in its queue");
        if (start(worker, id)) {
            run(worker, id);
            worker->started++;
        } else {
            worker->late++;
        }
        return 1;
    }
    return 0;
}

static void *work(void *of)
{
    struct worker *worker = of;
    for (uint64_t turn = 0; turn < SUBMITTED; turn++) {
        submit(worker, turn * WORKERS + worker->number);
        if (turn % 2 == 0)
            work_off(worker);
    }
    while (work_off(worker))
        ;
    return NULL;
}

/* Lists all jobs now and then: each is there once, and none is missing between two of its states. */
static void *watch(void *of)
{
    struct worker *watcher = of;
    static char seen[JOBS];
    static relc_page page;
    while (atomic_load(&ending) < JOBS) {
        unsigned least = atomic_load(&submitted);
        check(call(watcher, ALL, 0, NULL) == RELC_ROWS, "all jobs are listed");
        unsigned ended = atomic_load(&ending);
        relc_frame *frame = watcher->frames;
        check(frame->number + ended >= least, "a job that was submitted and isn't done is there");
        memset(seen, 0, sizeof seen);
        /* a page at a time, of rows of two cells: no call is made for each row */
        for (page.row = 0; page.row < frame->number; page.row += page.rows) {
            check(relc_rows(watcher->session, &page) == RELC_DONE, "there is such a row");
            for (uint64_t at = 0; at < page.rows; at++)
                check(!seen[page.cells[2 * at]]++, "a job is in one state");
        }
        watcher->started++;
    }
    return NULL;
}

/* Opens a store by the text of a file, and looks its operations up. */
static relc_store *opened(const char *name)
{
    static uint8_t text[MAX_TEXT];
    FILE *file = fopen(name, "rb");
    check(file != NULL, "the file can be read");
    size_t length = fread(text, 1, sizeof text, file);
    check(feof(file), "the file is shorter than 65,536 bytes");
    fclose(file);
    relc_open_frame frame = {.passes = WORKERS + 1, .limit = (uint64_t)1 << 48};
    relc_store *store = NULL;
    uint32_t code = relc_open(text, length, &frame, &store);
    if (code != RELC_DONE)
        fprintf(stderr, "%.*s\n", (int)frame.length, (const char *)frame.refusal);
    check(code == RELC_DONE, "the store is opened");
    for (int op = 0; op < OPERATIONS; op++) {
        relc_operation_frame asked = {.length = (uint32_t)strlen(NAMES[op])};
        memcpy(asked.name, NAMES[op], asked.length);
        check(relc_operation(store, &asked) == RELC_DONE, "the operation is there");
        numbers[op] = asked.op;
    }
    return store;
}

int main(int count, char **words)
{
    check(count == 2, "one word, the file of the specification");
    static struct worker workers[WORKERS + 1];
    relc_store *store = opened(words[1]);
    check((waiting = relc_open_waiting()) != NULL, "there is memory");
    for (uint64_t at = 0; at <= WORKERS; at++) {
        workers[at].number = at;
        check(relc_open_session(store, &workers[at].session) == RELC_DONE, "there is a session");
        void *(*does)(void *) = at < WORKERS ? work : watch;
        check(pthread_create(&workers[at].thread, NULL, does, &workers[at]) == 0, "there is a thread");
    }
    for (uint64_t at = 0; at <= WORKERS; at++)
        check(pthread_join(workers[at].thread, NULL) == 0, "the thread ends");
    uint64_t started = 0, late = 0;
    for (uint64_t at = 0; at < WORKERS; at++) {
        started += workers[at].started;
        late += workers[at].late;
    }
    for (uint64_t id = 0; id < JOBS; id++)
        check(atomic_load(&runs[id]) == 1, "each job was run once");
    check(started == JOBS, "and started once");
    call(&workers[0], ALL, 0, NULL);
    check(workers[0].frames->number == 0, "no job is left");
    printf("%d jobs ran once each; %llu times another thread was there before; all were listed %llu times\n", JOBS,
        (unsigned long long)late, (unsigned long long)workers[WORKERS].started);
    for (uint64_t at = 0; at <= WORKERS; at++)
        relc_close_session(workers[at].session);
    relc_close_waiting(waiting);
    relc_close_store(store);
    return 0;
}
