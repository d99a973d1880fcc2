/* Compares a store that threads share with a plain list of tuples, by the places of their calls. `sh bench/agree.sh` builds it, and runs
 * it on specifications of all kinds.
 *
 *     agree SPECIFICATION SEED CALLS THREADS VALUES ROWS
 *
 * Each thread makes CALLS calls, with values below VALUES, drawn from SEED: alone, prepared first, several as a group, or of an open
 * group; some are cancelled. Then all are made again in the order of their places on a list of tuples, which knows nothing of decompositions, plans or locks:
 * each reply has to be the same, each place has to be taken once, and each thread's calls have to stand in its order. Last, each
 * query is asked for each tuple that is left. ROWS is the most rows that a query tells, or 0. Prints one line, and ends with 0 where all
 * agree. */
#include "relc.h"

#include <pthread.h>
#include <sched.h>
#include <stdio.h>
#include <stdlib.h>
#include <string.h>

#define COLUMNS 12
#define DEPS 16
#define OPS 32
#define WORDS 64
#define STEP 4 /* the most calls of a group here */

#define WANT(what)                                                     \
    do {                                                               \
        if (!(what)) {                                                 \
            fprintf(stderr, "%s:%d: %s\n", __FILE__, __LINE__, #what); \
            exit(1);                                                   \
        }                                                              \
    } while (0)

/* columns in an order */
struct list {
    uint32_t count;
    uint32_t at[2 * COLUMNS];
};

enum kind { QUERY, INSERT, REMOVE, UPDATE };

struct operation {
    char name[RELC_NAME + 1];
    enum kind kind;
    struct list pattern, ranges, outs;
    uint32_t number, count; /* by which the store knows it, and how many values a call gives */
};

/* what the specification says of the relation, its decomposition left out */
static struct {
    uint32_t columns;
    char column[COLUMNS][RELC_NAME + 1];
    uint32_t deps;
    struct list left[DEPS], right[DEPS];
    uint32_t ops;
    struct operation op[OPS];
} spec;

static uint64_t most_rows, values_below;

/* ---- the specification */

static uint32_t column(const char *name)
{
    for (uint32_t at = 0; at < spec.columns; at++)
        if (strcmp(spec.column[at], name) == 0)
            return at;
    WANT(!"a column of the specification");
    return 0;
}

/* the columns that the words name, up to one of these two signs; how many words those are */
static uint32_t columns(struct list *list, char **word, const char *sign, const char *other)
{
    uint32_t at = 0;
    for (; word[at] != NULL && strcmp(word[at], sign) != 0 && strcmp(word[at], other) != 0; at++)
        list->at[list->count++] = column(word[at]);
    return at;
}

static void read_operation(char **word)
{
    static const char *const KINDS[] = {"query", "insert", "remove", "update"};
    WANT(spec.ops < OPS);
    struct operation *op = &spec.op[spec.ops++];
    snprintf(op->name, sizeof op->name, "%s", word[1]);
    for (uint32_t kind = 0; kind < 4; kind++)
        if (strcmp(word[2], KINDS[kind]) == 0)
            op->kind = (enum kind)kind;
    word += 3;
    word += columns(&op->pattern, word, ":", "->");
    if (*word != NULL && strcmp(*word, ":") == 0)
        word += 1 + columns(&op->ranges, word + 1, "->", "->");
    if (*word != NULL)
        columns(&op->outs, word + 1, "", "");
}

static void read_line(char *line)
{
    char *word[WORDS + 1] = {NULL};
    uint32_t count = 0;
    for (char *next = strtok(line, " \r\n"); next != NULL && count < WORDS; next = strtok(NULL, " \r\n"))
        word[count++] = next;
    if (count == 0)
        return;
    if (strcmp(word[0], "col") == 0) {
        WANT(spec.columns < COLUMNS);
        snprintf(spec.column[spec.columns++], RELC_NAME + 1, "%s", word[1]);
    } else if (strcmp(word[0], "fd") == 0) {
        WANT(spec.deps < DEPS);
        uint32_t left = columns(&spec.left[spec.deps], word + 1, "->", "->");
        columns(&spec.right[spec.deps], word + 2 + left, "", "");
        spec.deps++;
    } else if (strcmp(word[0], "op") == 0) {
        read_operation(word);
    }
}

/* the specification's text, up to its `end` */
static size_t read_specification(const char *path, uint8_t *text, size_t room)
{
    char line[4096];
    size_t length = 0;
    FILE *file = fopen(path, "rb");
    WANT(file != NULL);
    while (fgets(line, sizeof line, file) != NULL) {
        size_t bytes = strlen(line);
        WANT(length + bytes <= room);
        memcpy(text + length, line, bytes);
        length += bytes;
        if (strncmp(line, "end", 3) == 0)
            break;
        if (line[0] != '#')
            read_line(line);
    }
    fclose(file);
    return length;
}

/* ---- calls */

struct call {
    uint32_t op;     /* its place in spec.op */
    uint32_t kind;   /* what the store told: an enum relc_kind */
    uint64_t number; /* the same */
    uint64_t rows;   /* the hash of the rows that it told */
    uint64_t values[2 * COLUMNS];
};

/* calls that stand at one place */
struct step {
    uint64_t place, nth;
    uint32_t thread, count;
    struct call call[STEP];
};

static uint64_t next_random(uint64_t *state)
{
    uint64_t x = *state += 0x9e3779b97f4a7c15;
    x = (x ^ (x >> 30)) * 0xbf58476d1ce4e5b9;
    x = (x ^ (x >> 27)) * 0x94d049bb133111eb;
    return x ^ (x >> 31);
}

#define NO_ROWS 14695981039346656037u

static uint64_t with_value(uint64_t hash, uint64_t value)
{
    return (hash ^ value) * 1099511628211u + (hash >> 47);
}

static void draw(struct call *call, uint64_t *random)
{
    call->op = (uint32_t)(next_random(random) % spec.ops);
    const struct operation *op = &spec.op[call->op];
    for (uint32_t at = 0; at < op->count; at++)
        call->values[at] = next_random(random) % values_below;
}

static void ask(relc_frame *frame, const struct call *call)
{
    const struct operation *op = &spec.op[call->op];
    frame->op = op->number;
    frame->count = op->count;
    memcpy(frame->values, call->values, op->count * sizeof *call->values);
}

/* the reply of what the session has made, as it tells it in the frame and by its rows */
static void keep_reply(relc_session *session, const relc_frame *told, struct call *call)
{
    static _Thread_local relc_page page;
    call->kind = told->kind;
    call->number = told->number;
    call->rows = NO_ROWS;
    uint64_t width = spec.op[call->op].kind == QUERY ? spec.op[call->op].outs.count : spec.columns;
    for (page.row = 0; relc_rows(session, &page) == RELC_DONE; page.row += page.rows)
        for (uint64_t at = 0; at < page.rows * width; at++)
            call->rows = with_value(call->rows, page.cells[at]);
}

/* ---- a thread */

struct thread {
    relc_session *session;
    uint64_t random, steps;
    uint32_t number;
    struct step *step;
    uint64_t made;
};

/* a call alone, perhaps prepared first; whether it stands in the history */
static int make_one(struct thread *thread, struct step *step, relc_frame *frame)
{
    uint64_t way = next_random(&thread->random) % 8;
    step->count = 1;
    draw(&step->call[0], &thread->random);
    ask(frame, &step->call[0]);
    uint32_t code;
    do {
        code = way > 1 ? relc_try_call(thread->session, frame) : relc_begin(thread->session, frame);
        if (code == RELC_BUSY)
            sched_yield();
    } while (code == RELC_BUSY);
    WANT(code == RELC_DONE);
    if (way == 0) {
        WANT(relc_cancel(thread->session, frame) == RELC_DONE);
        return 0;
    }
    if (way == 1)
        WANT(relc_commit(thread->session, frame) == RELC_DONE);
    step->place = frame->place;
    step->nth = frame->nth;
    keep_reply(thread->session, frame, &step->call[0]);
    return 1;
}

/* several calls as one, perhaps prepared first */
static int make_group(struct thread *thread, struct step *step, relc_frame *frames)
{
    uint64_t way = next_random(&thread->random) % 8;
    step->count = 1 + (uint32_t)(next_random(&thread->random) % STEP);
    for (uint32_t at = 0; at < step->count; at++) {
        draw(&step->call[at], &thread->random);
        ask(&frames[at], &step->call[at]);
    }
    uint32_t code;
    do {
        code = way > 1 ? relc_try_group(thread->session, frames, step->count)
                       : relc_begin_group(thread->session, frames, step->count);
        if (code == RELC_BUSY)
            sched_yield();
    } while (code == RELC_BUSY);
    WANT(code == RELC_DONE);
    if (way == 0) {
        WANT(relc_cancel(thread->session, frames) == RELC_DONE);
        return 0;
    }
    if (way == 1)
        WANT(relc_commit(thread->session, frames) == RELC_DONE);
    step->place = frames[0].place;
    step->nth = frames[0].nth;
    for (uint32_t at = 0; at < step->count; at++) {
        frames[0].row = at;
        WANT(relc_pick(thread->session, &frames[0]) == RELC_DONE);
        keep_reply(thread->session, &frames[at], &step->call[at]);
    }
    return 1;
}

/* declares calls, of which some with any values, and makes them one by one */
static int make_open(struct thread *thread, struct step *step, relc_frame *frames)
{
    step->count = 1 + (uint32_t)(next_random(&thread->random) % STEP);
    for (uint32_t at = 0; at < step->count; at++) {
        draw(&step->call[at], &thread->random);
        frames[at].op = spec.op[step->call[at].op].number;
        frames[at].count = 0;
    }
    uint32_t code;
    do {
        code = relc_open_group(thread->session, frames, step->count);
        if (code == RELC_BUSY)
            sched_yield();
    } while (code == RELC_BUSY);
    WANT(code == RELC_DONE);
    for (uint32_t at = 0; at < step->count; at++) {
        ask(&frames[0], &step->call[at]);
        WANT(relc_call_open(thread->session, &frames[0]) == RELC_DONE);
        keep_reply(thread->session, &frames[0], &step->call[at]);
    }
    if (next_random(&thread->random) % 4 == 0) {
        WANT(relc_cancel(thread->session, frames) == RELC_DONE);
        return 0;
    }
    WANT(relc_commit(thread->session, frames) == RELC_DONE);
    step->place = frames[0].place;
    step->nth = frames[0].nth;
    return 1;
}

static void *run(void *of)
{
    struct thread *thread = of;
    relc_frame frames[STEP];
    memset(frames, 0, sizeof frames);
    for (uint64_t at = 0; at < thread->steps; at++) {
        struct step *step = &thread->step[thread->made];
        uint64_t way = next_random(&thread->random) % 16;
        int stands = way == 0   ? make_open(thread, step, frames)
                     : way < 3 ? make_group(thread, step, frames)
                               : make_one(thread, step, &frames[0]);
        step->thread = thread->number;
        thread->made += (uint64_t)stands;
    }
    return NULL;
}

/* ---- the plain list */

struct tuple {
    uint64_t at[COLUMNS];
};

static struct tuple *relation;
static size_t tuples, tuples_room;

static int agree_on(const struct list *list, const struct tuple *one, const struct tuple *two)
{
    for (uint32_t at = 0; at < list->count; at++)
        if (one->at[list->at[at]] != two->at[list->at[at]])
            return 0;
    return 1;
}

static uint32_t sorted_width;

static int by_values(const void *one, const void *two)
{
    const uint64_t *x = one, *y = two;
    for (uint32_t at = 0; at < sorted_width; at++)
        if (x[at] != y[at])
            return x[at] < y[at] ? -1 : 1;
    return 0;
}

/* the reply of the list to the call */
static void query(const struct operation *op, const struct call *call, struct call *reply)
{
    static uint64_t *found;
    static size_t room;
    size_t rows = 0, distinct = 0, width = op->outs.count;
    if (room < tuples * COLUMNS + COLUMNS) {
        room = 2 * tuples * COLUMNS + COLUMNS;
        WANT((found = realloc(found, room * sizeof *found)) != NULL);
    }
    for (size_t at = 0; at < tuples; at++) {
        const uint64_t *values = relation[at].at;
        int meant = 1;
        for (uint32_t col = 0; col < op->pattern.count; col++)
            meant &= values[op->pattern.at[col]] == call->values[col];
        for (uint32_t col = 0; col < op->ranges.count; col++) {
            const uint64_t *bounds = &call->values[op->pattern.count + 2 * col];
            uint64_t value = values[op->ranges.at[col]];
            meant &= bounds[0] <= value && value <= bounds[1];
        }
        if (!meant)
            continue;
        for (uint32_t col = 0; col < width; col++)
            found[rows * width + col] = values[op->outs.at[col]];
        rows++;
    }
    sorted_width = (uint32_t)width;
    qsort(found, rows, width * sizeof *found, by_values);
    reply->kind = RELC_ROWS;
    reply->rows = NO_ROWS;
    for (size_t row = 0; row < rows; row++) {
        if (row > 0 && by_values(&found[row * width], &found[(row - 1) * width]) == 0)
            continue;
        distinct++;
        for (size_t col = 0; col < width; col++)
            reply->rows = with_value(reply->rows, found[row * width + col]);
    }
    reply->number = distinct;
    if (most_rows != 0 && distinct > most_rows) {
        reply->kind = RELC_MANY;
        reply->rows = NO_ROWS;
    }
}

/* the first dependency that the tuple would break beside all others but this one, from 1, or 0 */
static uint64_t broken(const struct tuple *tuple, const struct tuple *but)
{
    for (uint32_t dep = 0; dep < spec.deps; dep++)
        for (size_t at = 0; at < tuples; at++)
            if (&relation[at] != but && agree_on(&spec.left[dep], &relation[at], tuple)
                && !agree_on(&spec.right[dep], &relation[at], tuple))
                return dep + 1;
    return 0;
}

/* the least tuple with the values at the pattern, which is the only one of an insert and an update */
static struct tuple *find(const struct operation *op, const struct tuple *given)
{
    struct tuple *found = NULL;
    sorted_width = spec.columns;
    for (size_t at = 0; at < tuples; at++)
        if (agree_on(&op->pattern, &relation[at], given) && (found == NULL || by_values(&relation[at], found) < 0))
            found = &relation[at];
    return found;
}

static void tell_tuple(struct call *reply, uint32_t kind, const struct tuple *tuple)
{
    reply->kind = kind;
    for (uint32_t col = 0; col < spec.columns; col++)
        reply->rows = with_value(reply->rows, tuple->at[col]);
}

static void change(const struct operation *op, const struct call *call, struct call *reply)
{
    struct tuple given = {{0}};
    if (op->kind == REMOVE)
        for (uint32_t at = 0; at < op->pattern.count; at++)
            given.at[op->pattern.at[at]] = call->values[at];
    else
        memcpy(given.at, call->values, spec.columns * sizeof *given.at);
    struct tuple *found = find(op, &given);
    reply->number = 0;
    reply->rows = NO_ROWS;
    if (op->kind == REMOVE) {
        reply->kind = RELC_ABSENT;
        if (found != NULL) {
            tell_tuple(reply, RELC_REMOVED, found);
            *found = relation[--tuples];
        }
        return;
    }
    if (op->kind == INSERT ? found != NULL : found == NULL) {
        reply->kind = op->kind == INSERT ? RELC_PRESENT : RELC_ABSENT;
        return;
    }
    reply->number = broken(&given, found);
    if (reply->number != 0) {
        reply->kind = RELC_CONFLICT;
        return;
    }
    if (op->kind == UPDATE) {
        tell_tuple(reply, RELC_UPDATED, found);
        *found = given;
        return;
    }
    if (tuples == tuples_room) {
        tuples_room = 2 * tuples_room + 64;
        WANT((relation = realloc(relation, tuples_room * sizeof *relation)) != NULL);
    }
    relation[tuples++] = given;
    reply->kind = RELC_INSERTED;
}

/* whether the list answers as the store did */
static int agrees(const struct call *call)
{
    const struct operation *op = &spec.op[call->op];
    struct call reply;
    if (op->kind == QUERY)
        query(op, call, &reply);
    else
        change(op, call, &reply);
    int counts = call->kind == RELC_ROWS || call->kind == RELC_MANY || call->kind == RELC_CONFLICT;
    return reply.kind == call->kind && reply.rows == call->rows && (!counts || reply.number == call->number);
}

static int by_place(const void *one, const void *two)
{
    uint64_t x = (*(const struct step *const *)one)->place, y = (*(const struct step *const *)two)->place;
    return x < y ? -1 : x > y;
}

/* ---- all */

static void tell(const struct step *step, uint32_t at)
{
    const struct call *call = &step->call[at];
    fprintf(stderr, "at place %llu, call %u of thread %u: %s", (unsigned long long)step->place, at, step->thread,
            spec.op[call->op].name);
    for (uint32_t value = 0; value < spec.op[call->op].count; value++)
        fprintf(stderr, " %llu", (unsigned long long)call->values[value]);
    fprintf(stderr, " -> kind %u, number %llu\n", call->kind, (unsigned long long)call->number);
}

/* each query asked for each tuple that is left: how many */
static uint64_t ask_all(relc_session *session)
{
    relc_frame frame;
    memset(&frame, 0, sizeof frame);
    uint64_t asked = 0;
    for (uint32_t at = 0; at < spec.ops; at++) {
        struct operation *op = &spec.op[at];
        for (size_t of = 0; of < tuples && op->kind == QUERY; of++) {
            struct call call = {.op = at};
            for (uint32_t col = 0; col < op->pattern.count; col++)
                call.values[col] = relation[of].at[op->pattern.at[col]];
            for (uint32_t col = 0; col < op->ranges.count; col++)
                call.values[op->pattern.count + 2 * col + 1] = UINT64_MAX;
            ask(&frame, &call);
            WANT(relc_try_call(session, &frame) == RELC_DONE);
            keep_reply(session, &frame, &call);
            WANT(agrees(&call));
            asked++;
        }
    }
    return asked;
}

static void look_up_operations(relc_store *store)
{
    for (uint32_t at = 0; at < spec.ops; at++) {
        struct operation *op = &spec.op[at];
        relc_operation_frame frame = {.length = (uint32_t)strlen(op->name)};
        memcpy(frame.name, op->name, frame.length);
        WANT(relc_operation(store, &frame) == RELC_DONE);
        WANT(frame.kind == (uint32_t)op->kind && frame.count <= 2 * COLUMNS);
        op->number = frame.op;
        op->count = frame.count;
    }
}

int main(int words, char **word)
{
    static uint8_t text[1 << 16];
    WANT(words == 7);
    uint64_t seed = strtoull(word[2], NULL, 10), calls = strtoull(word[3], NULL, 10);
    uint32_t threads = (uint32_t)strtoul(word[4], NULL, 10);
    values_below = strtoull(word[5], NULL, 10);
    most_rows = strtoull(word[6], NULL, 10);
    size_t length = read_specification(word[1], text, sizeof text);
    relc_open_frame opening = {.passes = threads + 1, .limit = 1ull << 48, .rows = most_rows};
    relc_store *store;
    relc_session *last;
    WANT(relc_open(text, length, &opening, &store) == RELC_DONE);
    look_up_operations(store);

    struct thread *thread = calloc(threads, sizeof *thread);
    pthread_t *handle = calloc(threads, sizeof *handle);
    WANT(thread != NULL && handle != NULL);
    for (uint32_t at = 0; at < threads; at++) {
        thread[at] = (struct thread){.random = seed * 1000 + at, .steps = calls, .number = at};
        WANT((thread[at].step = malloc(calls * sizeof *thread[at].step)) != NULL);
        WANT(relc_open_session(store, &thread[at].session) == RELC_DONE);
    }
    WANT(relc_open_session(store, &last) == RELC_DONE);
    for (uint32_t at = 0; at < threads; at++)
        WANT(pthread_create(&handle[at], NULL, run, &thread[at]) == 0);
    for (uint32_t at = 0; at < threads; at++)
        WANT(pthread_join(handle[at], NULL) == 0);

    uint64_t steps = 0, made = 0;
    for (uint32_t at = 0; at < threads; at++)
        steps += thread[at].made;
    const struct step **all = malloc((steps + 1) * sizeof *all);
    uint64_t *nth = calloc(threads, sizeof *nth);
    WANT(all != NULL && nth != NULL);
    steps = 0;
    for (uint32_t at = 0; at < threads; at++)
        for (uint64_t of = 0; of < thread[at].made; of++)
            all[steps++] = &thread[at].step[of];
    qsort(all, steps, sizeof *all, by_place);
    for (uint64_t place = 0; place < steps; place++) {
        const struct step *step = all[place];
        WANT(step->place == place && step->nth == nth[step->thread]++);
        for (uint32_t at = 0; at < step->count; at++, made++)
            if (!agrees(&step->call[at])) {
                tell(step, at);
                return 1;
            }
    }
    uint64_t asked = ask_all(last);
    printf("%s: %llu calls of %u threads agree, and %llu queries over %zu tuples at the end\n", word[1],
           (unsigned long long)made, threads, (unsigned long long)asked, tuples);
    for (uint32_t at = 0; at < threads; at++) {
        relc_close_session(thread[at].session);
        free(thread[at].step);
    }
    relc_close_session(last);
    relc_close_store(store);
    free(thread);
    free(handle);
    free(all);
    free(nth);
    free(relation);
    return 0;
}
