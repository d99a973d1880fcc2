/* relc_wait.h: calls and groups that wait, over those of relc.h that don't. Not proved: tested. One
 * relc_waiting is shared by all threads that call on one store, also where that is closed and goes on. Calls that are made, committed or
 * cancelled beside it ring it by relc_ring. What relc.h says of sessions, frames and memory holds
 * here too; a relc_waiting is used by any number of calls at a time.
 *
 * No function of this header is a point of cancellation, and none of them waits while a thread may be cancelled: a thread
 * that is cancelled (pthread_cancel) in one of them comes out of it first, with its answer, and ends at its next point
 * of cancellation. A call without an end so ends no sooner for being cancelled. */
#ifndef RELC_WAIT_H
#define RELC_WAIT_H

#include "relc.h"

#ifdef __cplusplus
extern "C" {
#endif

typedef struct relc_waiting relc_waiting;

/* NULL where memory or a lock is wanted. Whoever opens it closes it, once nobody calls by it;
 * closing NULL does nothing. */
relc_waiting *relc_open_waiting(void);
void relc_close_waiting(relc_waiting *waiting);

/* Calls as relc_try_call does, and waits while the answer is RELC_BUSY. Nothing is promised of when
 * it returns. Whatever it answers, stripe, found and who may tell of a try that was refused
 * meanwhile.
 *
 * Wait for nothing by another session while you have something prepared or open: the wait may have no
 * end, also where another thread's does the same. (It has none where the stripes that it has are wanted, nor
 * where each of two threads waits for what the other one has.)
 *
 * Where some calls come so thick that another one finds no gap between them, it gets the right of
 * way once it has waited for some milliseconds: the calls of this header stand back then before
 * they try, for some milliseconds at most. Those of relc.h don't. */
uint32_t relc_call(relc_waiting *waiting, relc_session *session, relc_frame *frame);

/* Prepares a call as relc_begin does, and waits as relc_call does. */
uint32_t relc_begin_waiting(relc_waiting *waiting, relc_session *session, relc_frame *frame);

/* The same of groups, as relc_try_group, relc_begin_group and relc_open_group make, prepare and open
 * them. */
uint32_t relc_call_group(
    relc_waiting *waiting, relc_session *session, relc_frame *frames, size_t count);
uint32_t relc_begin_group_waiting(
    relc_waiting *waiting, relc_session *session, relc_frame *frames, size_t count);
uint32_t relc_open_group_waiting(
    relc_waiting *waiting, relc_session *session, relc_frame *frames, size_t count);

/* The same with an end: what is still in the way so many nanoseconds from now on, or somewhat
 * later, is answered as RELC_BUSY, and stripe, found and who of the first frame tell what it was at
 * the last try. With 0 it tries, and doesn't sleep. */
uint32_t relc_call_until(
    relc_waiting *waiting, relc_session *session, relc_frame *frame, uint64_t nanoseconds);
uint32_t relc_begin_waiting_until(
    relc_waiting *waiting, relc_session *session, relc_frame *frame, uint64_t nanoseconds);
uint32_t relc_call_group_until(relc_waiting *waiting, relc_session *session, relc_frame *frames,
    size_t count, uint64_t nanoseconds);
uint32_t relc_begin_group_waiting_until(relc_waiting *waiting, relc_session *session,
    relc_frame *frames, size_t count, uint64_t nanoseconds);
uint32_t relc_open_group_waiting_until(relc_waiting *waiting, relc_session *session,
    relc_frame *frames, size_t count, uint64_t nanoseconds);

/* The functions of relc.h that take a store, for threads that use one store's at the same time: each waits for
 * its turn, while another thread is in one of these by the same relc_waiting, which is no longer than such a
 * function takes. So a server may open a session for each connection, look up what the connection asks, and give the
 * session back at its end. Beside them nobody calls such a function of relc.h on this store: one that looks up reads
 * what opening a session moves. The last one rings. Else they are as relc.h says. */
uint32_t relc_operation_in_turn(
    relc_waiting *waiting, relc_store *store, relc_operation_frame *frame);
uint32_t relc_shape_in_turn(relc_waiting *waiting, relc_store *store, const uint8_t *line,
    size_t length, relc_operation_frame *frame);
uint32_t relc_plans_in_turn(relc_waiting *waiting, relc_store *store, relc_text_page *page);
uint32_t relc_open_session_in_turn(
    relc_waiting *waiting, relc_store *store, relc_session **session);
uint32_t relc_give_back_in_turn(
    relc_waiting *waiting, relc_store *store, relc_session *session);

/* Wakes those that wait: to be called after each relc_try_call, relc_try_group, relc_commit (also
 * where it answers RELC_NO_CALL), relc_cancel, relc_close_session or relc_give_back that stands alone,
 * after each relc_begin, relc_begin_group or relc_open_group that is refused, and after a
 * relc_call_open that answers RELC_MEMORY. Where nobody waits it costs one load. */
void relc_ring(relc_waiting *waiting);

#ifdef __cplusplus
}
#endif

#endif
