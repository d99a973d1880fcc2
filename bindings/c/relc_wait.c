/* An event count over POSIX threads. A waiter is counted before it tries, and whoever gives stripes
 * back looks for waiters after that. A refused try of a call that waits may have stood in another
 * one's way for a moment, and doesn't ring: so nobody sleeps longer than RELC_NAP nanoseconds
 * before it tries again, by a clock that isn't set. (wakes.c sleeps so long that only a ring ends
 * it.)
 *
 * A stripe that readers always share is never free for a writer. So a call that has waited for RELC_PATIENCE
 * nanoseconds takes the right of way, which one at a time has, and others stand back before they try: the calls
 * that are under way end, and the stripe is free. It has it for RELC_WAY nanoseconds at most, since what is in the way may be
 * prepared and stay for long, and then others would wait for what they need not; and each time that it
 * got nothing by it, it waits twice as long before it takes it again. */
#include "relc_wait.h"

#include <pthread.h>
#include <stdatomic.h>
#include <stdlib.h>
#include <time.h>

#ifndef RELC_NAP
#define RELC_NAP 1000000L
#endif

#ifndef RELC_PATIENCE
#define RELC_PATIENCE 5000000L
#endif

#ifndef RELC_WAY
#define RELC_WAY 10000000L
#endif

#define TRIES 20
#define SECOND 1000000000u /* nanoseconds */
#define FOREVER UINT64_MAX

struct relc_waiting {
    atomic_uint waiters;
    atomic_uint taken; /* 1 while a call has the right of way; it changes under the lock */
    unsigned epoch;    /* under the lock */
    pthread_mutex_t lock;
    pthread_cond_t rung;  /* the epoch has changed */
    pthread_cond_t given; /* nobody has the right of way */
    pthread_mutex_t turn; /* of a function that takes a store */
};

/* a condition whose sleeps are timed by the monotonic clock */
static int open_condition(pthread_cond_t *condition)
{
    pthread_condattr_t attr;
    if (pthread_condattr_init(&attr) != 0)
        return 0;
    int opened = pthread_condattr_setclock(&attr, CLOCK_MONOTONIC) == 0
        && pthread_cond_init(condition, &attr) == 0;
    pthread_condattr_destroy(&attr);
    return opened;
}

/* whether all of them are opened; else none is */
static int open_locks(relc_waiting *waiting)
{
    if (pthread_mutex_init(&waiting->lock, NULL) == 0) {
        if (pthread_mutex_init(&waiting->turn, NULL) == 0) {
            if (open_condition(&waiting->rung)) {
                if (open_condition(&waiting->given))
                    return 1;
                pthread_cond_destroy(&waiting->rung);
            }
            pthread_mutex_destroy(&waiting->turn);
        }
        pthread_mutex_destroy(&waiting->lock);
    }
    return 0;
}

/* No thread is cancelled (pthread_cancel) while it has a lock, is counted as a waiter or has the right of way: the others
 * would wait for what it left, without an end. A cancellation that comes meanwhile stays pending, and ends the thread
 * at its next point of cancellation. Answers what is to be restored. */
static int keep_alive(void)
{
    int state;
    pthread_setcancelstate(PTHREAD_CANCEL_DISABLE, &state);
    return state;
}

static void restore(int state)
{
    pthread_setcancelstate(state, &state);
}

relc_waiting *relc_open_waiting(void)
{
    relc_waiting *waiting = calloc(1, sizeof *waiting);
    if (waiting == NULL)
        return NULL;
    if (open_locks(waiting))
        return waiting;
    free(waiting);
    return NULL;
}

void relc_close_waiting(relc_waiting *waiting)
{
    if (waiting == NULL)
        return;
    pthread_cond_destroy(&waiting->given);
    pthread_cond_destroy(&waiting->rung);
    pthread_mutex_destroy(&waiting->turn);
    pthread_mutex_destroy(&waiting->lock);
    free(waiting);
}

void relc_ring(relc_waiting *waiting)
{
    if (atomic_load(&waiting->waiters) == 0)
        return;
    int state = keep_alive();
    pthread_mutex_lock(&waiting->lock);
    waiting->epoch++;
    pthread_cond_broadcast(&waiting->rung);
    pthread_mutex_unlock(&waiting->lock);
    restore(state);
}

static uint64_t now(void)
{
    struct timespec at;
    clock_gettime(CLOCK_MONOTONIC, &at);
    return (uint64_t)at.tv_sec * SECOND + (uint64_t)at.tv_nsec;
}

/* so many nanoseconds behind the moment, or never */
static uint64_t after(uint64_t moment, uint64_t nanoseconds)
{
    return nanoseconds < FOREVER - moment ? moment + nanoseconds : FOREVER;
}

static uint64_t earlier(uint64_t moment, uint64_t other)
{
    return moment < other ? moment : other;
}

static struct timespec at_moment(uint64_t moment)
{
    return (struct timespec){.tv_sec = (time_t)(moment / SECOND), .tv_nsec = (long)(moment % SECOND)};
}

/* sleeps until somebody has rung since the epoch was read, or until the moment */
static void nap(relc_waiting *waiting, unsigned before, uint64_t end)
{
    struct timespec until = at_moment(end);
    pthread_mutex_lock(&waiting->lock);
    int slept = 0;
    while (waiting->epoch == before && slept == 0)
        slept = pthread_cond_timedwait(&waiting->rung, &waiting->lock, &until);
    pthread_mutex_unlock(&waiting->lock);
}

/* whether the caller has it from now on */
static int take_right_of_way(relc_waiting *waiting)
{
    pthread_mutex_lock(&waiting->lock);
    int is_free = atomic_load(&waiting->taken) == 0;
    if (is_free)
        atomic_store(&waiting->taken, 1);
    pthread_mutex_unlock(&waiting->lock);
    return is_free;
}

static void give_right_of_way(relc_waiting *waiting)
{
    pthread_mutex_lock(&waiting->lock);
    atomic_store(&waiting->taken, 0);
    pthread_cond_broadcast(&waiting->given);
    pthread_mutex_unlock(&waiting->lock);
}

/* sleeps while another call has the right of way, or until the moment */
static void stand_back(relc_waiting *waiting, uint64_t end)
{
    struct timespec until = at_moment(end);
    int state = keep_alive();
    pthread_mutex_lock(&waiting->lock);
    int slept = 0;
    while (atomic_load(&waiting->taken) != 0 && slept == 0)
        slept = pthread_cond_timedwait(&waiting->given, &waiting->lock, &until);
    pthread_mutex_unlock(&waiting->lock);
    restore(state);
}

static unsigned epoch_of(relc_waiting *waiting)
{
    pthread_mutex_lock(&waiting->lock);
    unsigned epoch = waiting->epoch;
    pthread_mutex_unlock(&waiting->lock);
    return epoch;
}

/* what asks a session for calls: for one, or for a group */
typedef uint32_t export(relc_session *, relc_frame *, size_t);

static uint32_t try_one(relc_session *session, relc_frame *frames, size_t count)
{
    (void)count;
    return relc_try_call(session, frames);
}

static uint32_t begin_one(relc_session *session, relc_frame *frames, size_t count)
{
    (void)count;
    return relc_begin(session, frames);
}

/* what is asked, and until when */
struct asking {
    relc_waiting *waiting;
    export *asks;
    relc_session *session;
    relc_frame *frames;
    size_t count;
    uint64_t end;
};

static uint32_t try_to(const struct asking *asking)
{
    return asking->asks(asking->session, asking->frames, asking->count);
}

/* tries and sleeps in turn until no other session is in the way, or until the end */
static uint32_t try_on(const struct asking *asking)
{
    relc_waiting *waiting = asking->waiting;
    uint64_t patience = RELC_PATIENCE;
    uint64_t turn = after(now(), patience); /* when the right of way is taken next, or given back */
    int is_mine = 0;
    uint32_t code;
    for (;;) {
        unsigned before = epoch_of(waiting);
        code = try_to(asking);
        uint64_t moment = now();
        if (code != RELC_BUSY || moment >= asking->end)
            break;
        if (moment >= turn && is_mine) {
            give_right_of_way(waiting);
            is_mine = 0;
            patience *= 2;
            turn = after(moment, patience);
        } else if (moment >= turn) {
            is_mine = take_right_of_way(waiting);
            turn = after(moment, is_mine ? RELC_WAY : RELC_NAP);
        }
        nap(waiting, before, earlier(earlier(after(moment, RELC_NAP), turn), asking->end));
    }
    if (is_mine)
        give_right_of_way(waiting);
    return code;
}

/* asks until no other session is in the way, or for so many nanoseconds */
static uint32_t ask(relc_waiting *waiting, export *asks, relc_session *session, relc_frame *frames,
    size_t count, uint64_t nanoseconds)
{
    struct asking asking = {waiting, asks, session, frames, count, FOREVER};
    if (nanoseconds != FOREVER)
        asking.end = after(now(), nanoseconds);
    if (atomic_load(&waiting->taken) != 0)
        stand_back(waiting, earlier(after(now(), RELC_WAY), asking.end));
    for (int tries = 0; tries < TRIES; tries++) {
        uint32_t code = try_to(&asking);
        if (code != RELC_BUSY || nanoseconds == 0)
            return code;
    }
    int state = keep_alive();
    atomic_fetch_add(&waiting->waiters, 1);
    uint32_t code = try_on(&asking);
    atomic_fetch_sub(&waiting->waiters, 1);
    restore(state);
    return code;
}

/* calls are made, and their stripes are free again */
static uint32_t call(relc_waiting *waiting, export *asks, relc_session *session, relc_frame *frames,
    size_t count, uint64_t nanoseconds)
{
    uint32_t code = ask(waiting, asks, session, frames, count, nanoseconds);
    relc_ring(waiting);
    return code;
}

/* calls are prepared, or a group is opened, and they keep their stripes, but for those of a refused try */
static uint32_t begin(relc_waiting *waiting, export *asks, relc_session *session, relc_frame *frames,
    size_t count, uint64_t nanoseconds)
{
    uint32_t code = ask(waiting, asks, session, frames, count, nanoseconds);
    if (code != RELC_DONE)
        relc_ring(waiting);
    return code;
}

uint32_t relc_call(relc_waiting *waiting, relc_session *session, relc_frame *frame)
{
    return call(waiting, try_one, session, frame, 1, FOREVER);
}

uint32_t relc_call_until(
    relc_waiting *waiting, relc_session *session, relc_frame *frame, uint64_t nanoseconds)
{
    return call(waiting, try_one, session, frame, 1, nanoseconds);
}

uint32_t relc_begin_waiting(relc_waiting *waiting, relc_session *session, relc_frame *frame)
{
    return begin(waiting, begin_one, session, frame, 1, FOREVER);
}

uint32_t relc_begin_waiting_until(
    relc_waiting *waiting, relc_session *session, relc_frame *frame, uint64_t nanoseconds)
{
    return begin(waiting, begin_one, session, frame, 1, nanoseconds);
}

uint32_t relc_call_group(
    relc_waiting *waiting, relc_session *session, relc_frame *frames, size_t count)
{
    return call(waiting, relc_try_group, session, frames, count, FOREVER);
}

uint32_t relc_call_group_until(relc_waiting *waiting, relc_session *session, relc_frame *frames,
    size_t count, uint64_t nanoseconds)
{
    return call(waiting, relc_try_group, session, frames, count, nanoseconds);
}

uint32_t relc_begin_group_waiting(
    relc_waiting *waiting, relc_session *session, relc_frame *frames, size_t count)
{
    return begin(waiting, relc_begin_group, session, frames, count, FOREVER);
}

uint32_t relc_begin_group_waiting_until(relc_waiting *waiting, relc_session *session,
    relc_frame *frames, size_t count, uint64_t nanoseconds)
{
    return begin(waiting, relc_begin_group, session, frames, count, nanoseconds);
}

uint32_t relc_open_group_waiting(
    relc_waiting *waiting, relc_session *session, relc_frame *frames, size_t count)
{
    return begin(waiting, relc_open_group, session, frames, count, FOREVER);
}

uint32_t relc_open_group_waiting_until(relc_waiting *waiting, relc_session *session,
    relc_frame *frames, size_t count, uint64_t nanoseconds)
{
    return begin(waiting, relc_open_group, session, frames, count, nanoseconds);
}

/* The turn of a function that takes a store: answers what its end restores. */
static int enter(relc_waiting *waiting)
{
    int state = keep_alive();
    pthread_mutex_lock(&waiting->turn);
    return state;
}

static void leave(relc_waiting *waiting, int state)
{
    pthread_mutex_unlock(&waiting->turn);
    restore(state);
}

uint32_t relc_operation_in_turn(
    relc_waiting *waiting, relc_store *store, relc_operation_frame *frame)
{
    int state = enter(waiting);
    uint32_t code = relc_operation(store, frame);
    leave(waiting, state);
    return code;
}

uint32_t relc_shape_in_turn(relc_waiting *waiting, relc_store *store, const uint8_t *line,
    size_t length, relc_operation_frame *frame)
{
    int state = enter(waiting);
    uint32_t code = relc_shape(store, line, length, frame);
    leave(waiting, state);
    return code;
}

uint32_t relc_plans_in_turn(relc_waiting *waiting, relc_store *store, relc_text_page *page)
{
    int state = enter(waiting);
    uint32_t code = relc_plans(store, page);
    leave(waiting, state);
    return code;
}

uint32_t relc_open_session_in_turn(relc_waiting *waiting, relc_store *store, relc_session **session)
{
    int state = enter(waiting);
    uint32_t code = relc_open_session(store, session);
    leave(waiting, state);
    return code;
}

uint32_t relc_give_back_in_turn(relc_waiting *waiting, relc_store *store, relc_session *session)
{
    int state = enter(waiting);
    uint32_t code = relc_give_back(store, session);
    leave(waiting, state);
    relc_ring(waiting); /* of what it had prepared */
    return code;
}
