/* The functions of relc.h that take a handle, each with a look at its handles first, for programs that are looked into:
 * `build.sh --check` puts them before the proved ones, under the same names. A handle that is none, was closed or given
 * back, is of another kind, of another store, or is used by another call at the same time, the number of another
 * store's operation, and a NULL where none may be, are told on standard error, and the program is aborted. A store that
 * goes on takes the numbers of operations that it had before. (What is closed may be had again by a store or a session
 * that is opened later; then a handle of before isn't told apart from it.) A look costs a lock and a walk over all
 * handles. */
#include "relc.h"

#include <pthread.h>
#include <stdio.h>
#include <stdlib.h>

enum kind { STORE, SESSION, CLOSED };
static const char *const KINDS[] = {"store", "session", "closed store"};
static const char *const NONE[] = {"this is no open store", "this is no open session", "this is no closed store"};

struct handle {
    const void *at;
    enum kind kind;
    const void *of;  /* a session's store, also where that is closed */
    uint32_t number; /* of the store, also where it goes on, or of the session's: none has 0 */
    int is_used;    /* a call has it */
    struct handle *next;
};

static pthread_mutex_t lock = PTHREAD_MUTEX_INITIALIZER;
static struct handle *handles; /* those that are open, under the lock */
static uint32_t stores;        /* how many were opened, under the lock */

/* An operation's number has that of its store in its upper half, where it was looked up here. (There may be more stores
 * than that has room for: the operations of those behind it aren't told apart.) */
#define HALF 16
#define STORES ((1u << HALF) - 1)

_Noreturn static void stop(const char *function, const char *what, const char *kind)
{
    fprintf(stderr, "%s: %s%s\n", function, what, kind);
    abort();
}

static void want(const char *function, const void *lent)
{
    if (lent == NULL)
        stop(function, "a pointer is NULL", "");
}

/* keeps a handle */
static void add(const char *function, struct handle kept)
{
    struct handle *handle = malloc(sizeof *handle);
    if (handle == NULL)
        stop(function, "there is no memory to keep the handle", "");
    pthread_mutex_lock(&lock);
    kept.next = handles;
    *handle = kept;
    handles = handle;
    pthread_mutex_unlock(&lock);
}

/* the number of a store that was opened just now */
static uint32_t next_number(void)
{
    pthread_mutex_lock(&lock);
    uint32_t number = stores < STORES ? ++stores : 0;
    pthread_mutex_unlock(&lock);
    return number;
}

static void add_store(const char *function, const relc_store *store)
{
    add(function, (struct handle){.at = store, .kind = STORE, .number = next_number()});
}

/* the number that the session's store has for an operation */
static uint32_t own(const char *function, const struct handle *session, uint32_t op)
{
    pthread_mutex_lock(&lock);
    uint32_t of = op >> HALF, last = stores;
    pthread_mutex_unlock(&lock);
    if (of == 0 || of > last)
        return op;
    if (of != session->number)
        stop(function, "the operation is of another ", KINDS[STORE]);
    return op & STORES;
}

/* the place of the handle in the list, under the lock */
static struct handle **find(const void *at)
{
    struct handle **place = &handles;
    while (*place != NULL && (*place)->at != at)
        place = &(*place)->next;
    return place;
}

/* the handle, which is used from now on */
static struct handle *enter(const char *function, const void *at, enum kind kind)
{
    want(function, at);
    pthread_mutex_lock(&lock);
    struct handle *handle = *find(at);
    if (handle == NULL || handle->kind != kind)
        stop(function, NONE[kind], "");
    if (handle->is_used)
        stop(function, "another call uses the ", KINDS[kind]);
    handle->is_used = 1;
    pthread_mutex_unlock(&lock);
    return handle;
}

static void leave(struct handle *handle)
{
    pthread_mutex_lock(&lock);
    handle->is_used = 0;
    pthread_mutex_unlock(&lock);
}

/* takes a handle that is used out of the list, in which its place may be another one's already */
static void end(struct handle *handle)
{
    pthread_mutex_lock(&lock);
    struct handle **place = &handles;
    while (*place != handle)
        place = &(*place)->next;
    *place = handle->next;
    pthread_mutex_unlock(&lock);
    free(handle);
}

/* ---- stores */

uint32_t relc_unchecked_open(
    const uint8_t *text, size_t length, relc_open_frame *frame, relc_store **store);
uint32_t relc_unchecked_open_with_plans(const uint8_t *text, size_t length, const uint8_t *plans,
    size_t plans_length, relc_open_frame *frame, relc_store **store);
uint32_t relc_unchecked_open_with(const uint8_t *text, size_t length, const uint8_t *shapes, size_t shapes_length,
    const uint8_t *plans, size_t plans_length, relc_open_frame *frame, relc_store **store);
uint32_t relc_unchecked_plans(relc_store *store, relc_text_page *page);
uint32_t relc_unchecked_operation(relc_store *store, relc_operation_frame *frame);
uint32_t relc_unchecked_shape(relc_store *store, const uint8_t *line, size_t length, relc_operation_frame *frame);
uint32_t relc_unchecked_open_session(relc_store *store, relc_session **session);
uint32_t relc_unchecked_give_back(relc_store *store, relc_session *session);
void relc_unchecked_close_store(relc_store *store);
void relc_unchecked_close_session(relc_session *session);
uint32_t relc_unchecked_close(relc_store *store, relc_closed **closed);
uint32_t relc_unchecked_resume(relc_closed *closed, const uint8_t *text, size_t length, const uint8_t *shapes,
    size_t shapes_length, const uint8_t *plans, size_t plans_length, relc_open_frame *frame, relc_store **store);
void relc_unchecked_drop_closed(relc_closed *closed);

uint32_t relc_open(const uint8_t *text, size_t length, relc_open_frame *frame, relc_store **store)
{
    want(__func__, text);
    want(__func__, frame);
    want(__func__, store);
    uint32_t code = relc_unchecked_open(text, length, frame, store);
    if (code == RELC_DONE)
        add_store(__func__, *store);
    return code;
}

uint32_t relc_open_with_plans(const uint8_t *text, size_t length, const uint8_t *plans, size_t plans_length,
    relc_open_frame *frame, relc_store **store)
{
    want(__func__, text);
    want(__func__, frame);
    want(__func__, store);
    uint32_t code = relc_unchecked_open_with_plans(text, length, plans, plans_length, frame, store);
    if (code == RELC_DONE)
        add_store(__func__, *store);
    return code;
}

uint32_t relc_open_with(const uint8_t *text, size_t length, const uint8_t *shapes, size_t shapes_length,
    const uint8_t *plans, size_t plans_length, relc_open_frame *frame, relc_store **store)
{
    want(__func__, text);
    want(__func__, frame);
    want(__func__, store);
    uint32_t code = relc_unchecked_open_with(text, length, shapes, shapes_length, plans, plans_length, frame, store);
    if (code == RELC_DONE)
        add_store(__func__, *store);
    return code;
}

uint32_t relc_plans(relc_store *store, relc_text_page *page)
{
    struct handle *handle = enter(__func__, store, STORE);
    want(__func__, page);
    uint32_t code = relc_unchecked_plans(store, page);
    leave(handle);
    return code;
}

uint32_t relc_operation(relc_store *store, relc_operation_frame *frame)
{
    struct handle *handle = enter(__func__, store, STORE);
    want(__func__, frame);
    uint32_t code = relc_unchecked_operation(store, frame);
    if (code == RELC_DONE)
        frame->op |= handle->number << HALF;
    leave(handle);
    return code;
}

uint32_t relc_shape(relc_store *store, const uint8_t *line, size_t length, relc_operation_frame *frame)
{
    struct handle *handle = enter(__func__, store, STORE);
    want(__func__, line);
    want(__func__, frame);
    uint32_t code = relc_unchecked_shape(store, line, length, frame);
    if (code == RELC_DONE)
        frame->op |= handle->number << HALF;
    leave(handle);
    return code;
}

uint32_t relc_open_session(relc_store *store, relc_session **session)
{
    struct handle *handle = enter(__func__, store, STORE);
    want(__func__, session);
    uint32_t code = relc_unchecked_open_session(store, session);
    if (code == RELC_DONE)
        add(__func__, (struct handle){.at = *session, .kind = SESSION, .of = store, .number = handle->number});
    leave(handle);
    return code;
}

uint32_t relc_give_back(relc_store *store, relc_session *session)
{
    if (session == NULL)
        return relc_unchecked_give_back(store, session);
    struct handle *handle = enter(__func__, store, STORE);
    struct handle *given = enter(__func__, session, SESSION);
    if (given->of != store)
        stop(__func__, "the session is of another ", KINDS[STORE]);
    end(given);
    uint32_t code = relc_unchecked_give_back(store, session);
    leave(handle);
    return code;
}

void relc_close_store(relc_store *store)
{
    if (store == NULL)
        return;
    end(enter(__func__, store, STORE));
    relc_unchecked_close_store(store);
}

void relc_close_session(relc_session *session)
{
    if (session == NULL)
        return;
    end(enter(__func__, session, SESSION));
    relc_unchecked_close_session(session);
}

uint32_t relc_close(relc_store *store, relc_closed **closed)
{
    struct handle *handle = enter(__func__, store, STORE);
    want(__func__, closed);
    uint32_t code = relc_unchecked_close(store, closed);
    if (code != RELC_DONE) {
        leave(handle);
        return code;
    }
    uint32_t number = handle->number;
    end(handle);
    add(__func__, (struct handle){.at = *closed, .kind = CLOSED, .number = number});
    return code;
}

uint32_t relc_resume(relc_closed *closed, const uint8_t *text, size_t length, const uint8_t *shapes, size_t shapes_length,
    const uint8_t *plans, size_t plans_length, relc_open_frame *frame, relc_store **store)
{
    struct handle *handle = enter(__func__, closed, CLOSED);
    want(__func__, text);
    want(__func__, frame);
    want(__func__, store);
    uint32_t code =
        relc_unchecked_resume(closed, text, length, shapes, shapes_length, plans, plans_length, frame, store);
    if (code != RELC_DONE) {
        leave(handle);
        return code;
    }
    uint32_t number = handle->number;
    end(handle);
    add(__func__, (struct handle){.at = *store, .kind = STORE, .number = number});
    return code;
}

void relc_drop_closed(relc_closed *closed)
{
    if (closed == NULL)
        return;
    end(enter(__func__, closed, CLOSED));
    relc_unchecked_drop_closed(closed);
}

/* ---- sessions */

#define ON_SESSION(name, parameters, lent, arguments)                                     \
    uint32_t relc_unchecked_##name parameters;                                            \
    uint32_t relc_##name parameters                                                       \
    {                                                                                     \
        struct handle *handle = enter(__func__, session, SESSION);                        \
        want(__func__, lent);                                                             \
        uint32_t code = relc_unchecked_##name arguments;                                  \
        leave(handle);                                                                    \
        return code;                                                                      \
    }
#define ON_FRAME(name) \
    ON_SESSION(name, (relc_session *session, relc_frame *frame), frame, (session, frame))

/* the same of what asks for calls, by a frame or by several, of which no more than a group has are looked at */
typedef uint32_t asks(relc_session *session, relc_frame *frames, size_t count);

static uint32_t ask(const char *function, asks *call, relc_session *session, relc_frame *frames, size_t count)
{
    struct handle *handle = enter(function, session, SESSION);
    want(function, frames);
    size_t known = count <= RELC_GROUP ? count : 0;
    uint32_t ops[RELC_GROUP];
    for (size_t at = 0; at < known; at++) {
        ops[at] = frames[at].op;
        frames[at].op = own(function, handle, ops[at]);
    }
    uint32_t code = call(session, frames, count);
    for (size_t at = 0; at < known; at++)
        frames[at].op = ops[at];
    leave(handle);
    return code;
}

#define ON_CALL(name)                                                                     \
    uint32_t relc_unchecked_##name(relc_session *session, relc_frame *frame);             \
    static uint32_t one_##name(relc_session *session, relc_frame *frame, size_t count)    \
    {                                                                                     \
        (void)count;                                                                      \
        return relc_unchecked_##name(session, frame);                                     \
    }                                                                                     \
    uint32_t relc_##name(relc_session *session, relc_frame *frame)                        \
    {                                                                                     \
        return ask(__func__, one_##name, session, frame, 1);                              \
    }
#define ON_CALLS(name)                                                                    \
    asks relc_unchecked_##name;                                                           \
    uint32_t relc_##name(relc_session *session, relc_frame *frames, size_t count)         \
    {                                                                                     \
        return ask(__func__, relc_unchecked_##name, session, frames, count);              \
    }

ON_CALL(try_call)
ON_CALL(begin)
ON_CALL(call_open)
ON_CALLS(try_group)
ON_CALLS(begin_group)
ON_CALLS(open_group)
ON_FRAME(commit)
ON_FRAME(pick)
ON_FRAME(learn)
ON_FRAME(row)
ON_FRAME(cancel)
ON_SESSION(rows, (relc_session *session, relc_page *page), page, (session, page))

uint32_t relc_unchecked_tell(relc_session *from, relc_session *to);
uint32_t relc_tell(relc_session *from, relc_session *to)
{
    struct handle *tells = enter(__func__, from, SESSION), *hears = enter(__func__, to, SESSION);
    if (tells->of != hears->of || tells->number != hears->number)
        stop(__func__, "the session is of another ", KINDS[STORE]);
    uint32_t code = relc_unchecked_tell(from, to);
    leave(hears);
    leave(tells);
    return code;
}
