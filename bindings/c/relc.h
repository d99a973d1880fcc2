/* relc.h: a relation that several threads share, kept by the decomposition and the locks of its
 * specification.
 *
 * Ownership.  relc_open gives a store, relc_open_session a session of it: a thread's own end.
 *             Whoever opens closes, by relc_close_session and relc_close_store, each handle once,
 *             in any order: sessions live on when their store is closed. Before it is a session may
 *             be given back to it by relc_give_back, in place of being closed. A store that has all
 *             of its sessions back may become a closed store, by relc_close, in place of being closed;
 *             whoever has that resumes or drops it, once. Nothing that a call takes is kept: texts,
 *             names, values and frames are read and written during the call alone.
 * Threads.    A session is used by one call at a time. It may move to another thread, where the
 *             move is ordered, as by a lock or by the start or the end of a thread. Different
 *             sessions are used at the same time. Of the functions that take a store one is called
 *             at a time for that store, beside calls on its sessions (relc_wait.h has them for
 *             several threads). A closed store may move as a session does. A frame, too, is lent to
 *             one call at a time.
 * Codes.      Each function of this header answers a code, but relc_version, the two that answer
 *             texts, relc_close_store, relc_close_session and relc_drop_closed; RELC_DONE is 0.
 *             A call that is refused has changed nothing in the store, nor in the session but for
 *             RELC_UNSEEN, and for RELC_NO_CALL of relc_commit and RELC_MEMORY of relc_call_open,
 *             which end an open group; a relc_frame or a relc_operation_frame is as before but for
 *             what RELC_BUSY tells, and a relc_page but for `rows`. Nothing aborts, nothing waits,
 *             and nothing is printed.
 * Waiting.    Whoever is RELC_BUSY may try again, or call by relc_wait.h. Wait for nothing by another
 *             session while you have something prepared or open: the wait may have no end, also where
 *             another thread's does the same.
 * Memory.     Every byte that is lent is initialised: frames and pages (= {0}), and the places that store
 *             and session are written to (= NULL). What is lent is aligned as its type is. What one
 *             call is lent doesn't overlap, and but for a text nobody else reads or writes it
 *             meanwhile. No pointer is NULL, not even that of a text of no bytes, nor the frame of
 *             relc_cancel; but the texts of shapes and of plans of relc_open_with, relc_open_with_plans
 *             and relc_resume may be, and the functions that end what a handle has, but relc_close, take
 *             NULL, and do nothing. No function is called from a signal handler, nor in a forked child
 *             of a process with threads.
 *
 * What is proved of each function (crates/rc_c), and what is not, says docs/EMBEDDING.md. That
 * callers keep what is said here is theirs to see to; that this header agrees with
 * crates/rc_embed/src/frame.rt and open_frame.rt is tested. */
#ifndef RELC_H
#define RELC_H

#include <stddef.h>
#include <stdint.h>

#ifdef __cplusplus
extern "C" {
#endif

/* the version of this header and of its library: it rises where programs must be compiled anew */
#define RELC_VERSION 3

/* how many values of a call there is room for: of a query those of its pattern, and a least and a
 * greatest value of each range column, of 32 columns at most */
#define RELC_VALUES 64

/* how many calls of a group */
#define RELC_GROUP 16

/* how many values of a row, which are no more than there are columns, and of several rows at once */
#define RELC_CELLS 32
#define RELC_PAGE 1024

/* the longest name of an operation, and the longest refusal */
#define RELC_NAME 16
#define RELC_REFUSAL 64

/* how many bytes of a text at once, and of a line by which an operation is looked up */
#define RELC_TEXT 4096
#define RELC_SHAPE 4096

/* A store with the sessions that are left to begin, a session, and a store that was closed and may go on. */
typedef struct relc_store relc_store;
typedef struct relc_session relc_session;
typedef struct relc_closed relc_closed;

enum relc_code {
    RELC_DONE = 0,
    RELC_MEMORY = 1,       /* memory was wanted */
    RELC_BUSY = 2,         /* another session stood in the way: stripe, found, who of the frame */
    RELC_SPENT = 3,        /* the session has made as many calls as its store lets it */
    RELC_OPERATION = 4,    /* no operation has this number, or this name, or asks so */
    RELC_VALUE_COUNT = 5,  /* the operation takes another number of values */
    RELC_PREPARED = 6,     /* a call or a group is prepared, or a group is open, and neither
                              committed nor cancelled */
    RELC_NOT_PREPARED = 7, /* nothing is prepared, and no group open */
    RELC_NO_ROW = 8,       /* the reply has no such row, or there is no such reply */
    RELC_OPTIONS = 9,      /* passes, limit or rows are out of their ranges */
    RELC_TOO_LONG = 10,    /* one of the texts is longer than 2^24 bytes */
    RELC_LINE = 11,        /* the text breaks a line rule: refusal of the frame */
    RELC_RULE = 12,        /* the specification breaks a rule of acceptance: the same */
    RELC_NONE_LEFT = 13,   /* of the store's passes none is left to begin a session with */
    RELC_UNSEEN = 14,      /* the session has seen less than what was to be learned */
    RELC_COUNT = 15,       /* a group has no call, or would have more than RELC_GROUP */
    RELC_NOT_OPEN = 16,    /* no group is open */
    RELC_UNCOVERED = 17,   /* what the open group declared doesn't suffice for the call */
    RELC_NO_CALL = 18,     /* the open group had made no call, and is over */
    RELC_PLAN_LINE = 19,   /* the text of the plans breaks a rule of their lines: refusal of the frame */
    RELC_PLAN = 20,        /* a plan that is written breaks a rule of plans: the same */
    RELC_SHAPE_LINE = 21,  /* the text of the shapes breaks a line rule: the same */
    RELC_SESSIONS = 22,    /* the closed store had more sessions than passes of the frame */
    RELC_LIMIT = 23,       /* a session of the closed store has made more calls than limit of the frame */
    RELC_OTHER = 24,       /* the specification, rows with it, isn't that of the closed store, nor that
                              with further operations behind its own */
    RELC_OUTSIDE = 25,     /* a session of the store isn't given back */
    RELC_SHARED = 26       /* all are, and something of the store is held yet, which is built never to come */
};

/* kinds of a reply */
enum relc_kind {
    RELC_ROWS = 0,     /* a query's distinct rows, rising: number of them */
    RELC_MANY = 1,     /* a query has more than the store was opened for: their number */
    RELC_INSERTED = 2, /* the tuple was added */
    RELC_PRESENT = 3,  /* a tuple with the same pattern values is there */
    RELC_CONFLICT = 4, /* it would break the dependency with this number, counted from 1 */
    RELC_REMOVED = 5,  /* the tuple was taken out: its values are row 0 */
    RELC_ABSENT = 6,   /* no tuple matches */
    RELC_UPDATED = 7   /* the tuple is in the place of another, whose values are row 0 */
};

/* what a busy stripe had; for session numbers see relc_open_session */
enum relc_found {
    RELC_WRITER = 0,  /* session number `who` writes it */
    RELC_READERS = 1, /* `who` sessions read it; one that finds a writer counts until it is out */
    RELC_LATCH = 2    /* session number `who` begins to read it */
};

/* How a store is to be opened, and why it is not. */
typedef struct relc_open_frame {
    uint32_t passes;               /* asked: how many sessions there may be, 1 to 255 */
    uint32_t length;               /* told: how many bytes the refusal has; 0 but for RELC_LINE,
                                      RELC_RULE, RELC_SHAPE_LINE, RELC_PLAN_LINE and RELC_PLAN */
    uint64_t limit;                /* asked: how many calls each session may make, 1 to 2^48 */
    uint64_t rows;                 /* asked: the most rows that a query tells one by one, 1 to
                                      2^32 - 1, or 0 for no limit; of more it tells the number */
    uint64_t seed[2];              /* asked: the secret of the store's hash tables: two numbers
                                      drawn at random (getrandom) and told to nobody, where who
                                      chooses the values isn't trusted; else any, as 0 */
    uint8_t refusal[RELC_REFUSAL]; /* told with these: as `relc check` and `relc hand` print it,
                                      `refused S3 line 12`, `refused A6 edge e2`, `refused H2 line 3`
                                      of the text of the plans, or `refused K2 plan succ statement 1`,
                                      the statements counted from 0; with RELC_SHAPE_LINE `refused W4
                                      line 3` of the text of the shapes */
} relc_open_frame;

/* Which operation is meant, what its calls give and are told, and what it finds tuples by. */
typedef struct relc_operation_frame {
    uint32_t length;              /* asked: how many bytes the name has, at most RELC_NAME */
    uint32_t op;                  /* told: the number by which it is called, on this store alone */
    uint32_t kind;                /* told: 0 for a query, 1 for an insert, 2 for a remove, 3 for an
                                     update */
    uint32_t count;               /* told: how many values a call gives */
    uint64_t width;               /* told: how many values a row of its reply has */
    uint8_t name[RELC_NAME];      /* asked */
    uint8_t columns[RELC_VALUES]; /* told: the columns of a call's values, by their numbers in the
                                     specification; a range column twice, for its least and for
                                     its greatest value */
    uint64_t pattern_count;       /* told: how many columns its pattern has */
    uint8_t pattern[RELC_CELLS];  /* told: these columns, in the order in which the pattern is
                                     written: a frame that declares the operation to
                                     relc_open_group gives a value of each, in this order */
} relc_operation_frame;

/* What a session is asked, and what it tells. What isn't told stays as it was. */
typedef struct relc_frame {
    uint32_t op;                  /* asked: the operation's number */
    uint32_t count;               /* asked: how many values there are */
    uint64_t values[RELC_VALUES]; /* asked: in the order of the operation's columns */
    uint32_t kind;                /* told: an enum relc_kind */
    uint32_t found;               /* told with RELC_BUSY: an enum relc_found */
    uint32_t stripe;              /* told with RELC_BUSY: the stripe, over all classes */
    uint32_t who;                 /* told with RELC_BUSY: see enum relc_found */
    uint64_t number;              /* told: of rows, or of the dependency */
    uint64_t place;               /* told where calls are made, and not where they are prepared, or
                                     made of an open group: the place of the call, or of the group,
                                     in the one history of all, in which a group counts as one */
    uint64_t nth;                 /* told with it: its number among the session's own */
    uint64_t seen;                /* asked and told by relc_learn: the length of a history that a
                                     session has seen */
    uint64_t row;                 /* asked by relc_row: which row, from 0; by relc_pick: which call */
    uint64_t width;               /* told by relc_row: how many values it has */
    uint64_t cells[RELC_CELLS];   /* told by relc_row: its values, in the order of the query's
                                     outputs, or of the columns of the tuple that was there */
} relc_frame;

/* Several rows of a reply at once. */
typedef struct relc_page {
    uint64_t row;              /* asked: the first of the rows, from 0 */
    uint64_t rows;             /* told: how many rows were copied */
    uint64_t cells[RELC_PAGE]; /* told: their values, one row behind the other */
} relc_page;

/* A part of a text. */
typedef struct relc_text_page {
    uint64_t at;              /* asked: the first of the bytes, from 0 */
    uint64_t length;          /* told: how many bytes the whole text has */
    uint64_t count;           /* told: how many bytes were copied, 0 where none is left */
    uint8_t bytes[RELC_TEXT]; /* told: they */
} relc_text_page;

/* The RELC_VERSION of the library, for programs that load it as they start: where it is another
 * than the one that they were compiled with, they call nothing else. */
uint32_t relc_version(void);

/* Opens a store by its specification's text. RELC_DONE: *store is the caller's. Else RELC_OPTIONS,
 * RELC_TOO_LONG, RELC_LINE or RELC_RULE, in that order of tests, or RELC_MEMORY, and *store is not
 * written. */
uint32_t relc_open(const uint8_t *text, size_t length, relc_open_frame *frame, relc_store **store);

/* Opens a store so, with plans of operations that are written by hand: in the form in which relc_plans
 * tells them, each under a line `plan NAME`, with the line `end` behind the last. They name the edges, the
 * classes and the columns of the specification that the store has, in which singletons are inlined: so begin
 * with what relc_plans tells of a store of it. An operation without a plan there has the one that is planned for it, as all
 * have where `plans` is NULL or the text is empty. A plan is taken exactly where it keeps K1 to K7; replies
 * and history are the same by any. Codes as relc_open, in that order of tests, then RELC_PLAN_LINE for the
 * first broken rule of the lines of plans (H1 to H4, S8), and RELC_PLAN for the first plan that breaks a
 * rule. RELC_TOO_LONG comes for either text. */
uint32_t relc_open_with_plans(const uint8_t *text, size_t length, const uint8_t *plans, size_t plans_length,
                              relc_open_frame *frame, relc_store **store);

/* Opens a store so, with operations that the specification doesn't declare: a text of shapes has a line for
 * each, `query COLS -> COLS`, `insert COLS` or `remove COLS`, in a text with `relc 2` also `query COLS : COLS
 * -> COLS` and `update COLS`, as an `op` line has it behind its name. They stand behind the declared operations,
 * at most 32, and relc_shape finds them; a line that asks as an earlier one does gives no further one. No text
 * of plans has plans of them. Where `shapes`, or `plans`, is NULL or the text is empty there are none. Codes as
 * relc_open_with_plans; RELC_SHAPE_LINE, for the first broken rule of the lines of shapes (S2, S3, S4, S6, W4),
 * comes before RELC_PLAN_LINE. */
uint32_t relc_open_with(const uint8_t *text, size_t length, const uint8_t *shapes, size_t shapes_length, const uint8_t *plans,
                        size_t plans_length, relc_open_frame *frame, relc_store **store);

/* Copies the text of the plans by which the store answers its operations, from byte `at` on, as many bytes
 * as there is room for: of each operation a line `plan NAME`, and a line for each statement; of one that isn't
 * declared `plan ?1` and so on. With a line `end` behind it is what relc_open_with_plans reads, where all are
 * declared. RELC_DONE or RELC_MEMORY. */
uint32_t relc_plans(relc_store *store, relc_text_page *page);

/* Of a refusal that relc_open, relc_open_with, relc_open_with_plans or relc_resume told: what the rule asks, what the item
 * or line that it names does, and what to try, as docs/REFUSALS.md has it. NULL where the frame tells none. */
const char *relc_rule_text(const relc_open_frame *frame);

/* What a code means, in a few words. Neither this text nor the one above is ever freed. */
const char *relc_code_text(uint32_t code);

/* Looks an operation up by its name, once. RELC_DONE or RELC_OPERATION. */
uint32_t relc_operation(relc_store *store, relc_operation_frame *frame);

/* Looks an operation up by what it asks, once: the first one, declared or not, of the kind and with the lists
 * of columns, in written order, of this one line of at most RELC_SHAPE bytes, which has the form of a line of
 * shapes. It tells the frame what relc_operation tells; length and name of the frame aren't read. RELC_DONE, or
 * RELC_OPERATION where no operation asks so, also where the line is longer or has no such form, or RELC_MEMORY. */
uint32_t relc_shape(relc_store *store, const uint8_t *line, size_t length, relc_operation_frame *frame);

/* Begins a session, with the lowest number that is left of its store's, from 0: the n-th has number n
 * where none was given back. RELC_DONE: *session is the caller's. Else RELC_NONE_LEFT or RELC_MEMORY,
 * and *session is not written. The pass of a session, and its number, serve another one where it was
 * given back (relc_give_back), and are lost where it was closed. */
uint32_t relc_open_session(relc_store *store, relc_session **session);

/* Calls an operation, and waits for nobody. RELC_DONE: the call stands in the history of all calls
 * at `place`, with the reply that `kind` and `number` tell. Else RELC_PREPARED, RELC_OPERATION,
 * RELC_VALUE_COUNT, RELC_SPENT, in that order of tests, then RELC_MEMORY or RELC_BUSY. */
uint32_t relc_try_call(relc_session *session, relc_frame *frame);

/* Prepares a call: its stripes are taken, and its reply is told; relc_commit or relc_cancel
 * follows. Codes as relc_try_call. Until then other sessions that need those stripes are
 * RELC_BUSY. */
uint32_t relc_begin(relc_session *session, relc_frame *frame);

/* Calls up to RELC_GROUP operations as one, and waits for nobody: each frame asks for one call, and
 * nobody sees a state between them. RELC_DONE: they stand in the history at `place`, as one, and each
 * frame tells its own reply. Else RELC_PREPARED, then RELC_COUNT, then of the first frame that has one
 * of them RELC_OPERATION or RELC_VALUE_COUNT, then RELC_SPENT, in that order of tests, then RELC_MEMORY,
 * or RELC_BUSY, which tells the first frame what was in the way. A reply as RELC_CONFLICT or
 * RELC_ABSENT is a reply: the group goes on. */
uint32_t relc_try_group(relc_session *session, relc_frame *frames, size_t count);

/* Prepares calls as one: their stripes are taken, and their replies told; relc_commit or relc_cancel
 * follows. Codes as relc_try_group. */
uint32_t relc_begin_group(relc_session *session, relc_frame *frames, size_t count);

/* Opens a group of calls that aren't known yet, and waits for nobody: each of up to RELC_GROUP frames
 * declares an operation that may be called, with the values of its pattern, or with none (`count` 0):
 * then with any. The stripes that calls of these may want are taken, and held until relc_commit or
 * relc_cancel; of stripes that the declared values don't choose, all that the operation may want. Codes
 * as relc_try_group, where RELC_VALUE_COUNT means that there are values, and not one for each column of
 * the pattern. The frames are told nothing but what RELC_BUSY tells the first. */
uint32_t relc_open_group(relc_session *session, relc_frame *frames, size_t count);

/* Makes one call more of the open group, over what those before it left; nobody else sees it yet. RELC_DONE:
 * the frame tells its reply, which relc_row and relc_rows read then. Else RELC_NOT_OPEN,
 * RELC_OPERATION, RELC_VALUE_COUNT, RELC_COUNT (it has made RELC_GROUP calls), in that order of tests, then
 * RELC_UNCOVERED: it may want a stripe that the group doesn't hold, or doesn't hold to be changed; the
 * group is open and as it was. This never comes of a call that was declared. RELC_MEMORY, in place of
 * RELC_DONE or RELC_UNCOVERED: the group is over, as if it had been cancelled, and relc_row reads the
 * reply of what was made before it. */
uint32_t relc_call_open(relc_session *session, relc_frame *frame);

/* Commits the prepared call or group, or the calls of the open group, as one; they have the replies that
 * were told. Of several the frame tells that of the first call again. It takes no memory. RELC_DONE, or
 * RELC_NO_CALL where a group is open that has made no call: it is over, as if it had been cancelled; or
 * RELC_NOT_PREPARED. */
uint32_t relc_commit(relc_session *session, relc_frame *frame);

/* Cancels the prepared call or group, or the open group, as if it had not begun. It takes no memory, and
 * neither reads nor writes the frame. RELC_DONE or RELC_NOT_PREPARED. */
uint32_t relc_cancel(relc_session *session, relc_frame *frame);

/* Picks the reply to the call of a group that has the number `row`, from 0: relc_row and relc_rows read
 * it from then on. Whatever is made, prepared, opened, committed or cancelled next picks the first again,
 * and a call of an open group its own.
 * RELC_DONE, or RELC_NO_ROW, where there is no such call and nothing changes. */
uint32_t relc_pick(relc_session *session, relc_frame *frame);

/* Learns that another session of the store has seen `seen` calls of the history: later calls of
 * this one stand after all of them. RELC_DONE: `seen` tells how many this one has seen then, at
 * least as many. RELC_UNSEEN: it has seen fewer, as where no session of the store has seen so many.
 * In both cases it has seen what stood in the history then, and its later calls stand after that:
 * RELC_UNSEEN is the one refusal that changes the session. With `seen` 0 it is never RELC_UNSEEN.
 * Else RELC_PREPARED. */
uint32_t relc_learn(relc_session *session, relc_frame *frame);

/* Tells the session `to`, which is another one of the same store, all that `from` was told of the history: its
 * own calls, and what others told it. Later calls of `to` stand after all of it. RELC_DONE, or RELC_PREPARED
 * where one of the two has something prepared or open, and nothing changes. It takes no memory. Both sessions
 * are used for the call: no other thread may use one of them meanwhile. */
uint32_t relc_tell(relc_session *from, relc_session *to);

/* Copies row `row` into `cells`: of the reply of what is prepared or open, where something is, else of
 * the call or the group that was made last; of a group that of the first call, of an open one that of the
 * last, or of the one that relc_pick picked. RELC_DONE or RELC_NO_ROW, also where an open group has made
 * no call yet. */
uint32_t relc_row(relc_session *session, relc_frame *frame);

/* Copies the rows from `row` on into `cells`, one behind the other, as many as there is room for,
 * and tells how many: of the reply of which relc_row copies one. Each has as many values as the
 * operation's `width`; the cells behind them stay as they were. RELC_DONE, or RELC_NO_ROW with
 * `rows` 0. */
uint32_t relc_rows(relc_session *session, relc_page *page);

/* Closes a store, where it isn't NULL. Its sessions may go on. */
void relc_close_store(relc_store *store);

/* Closes a session, where it isn't NULL, and cancels the call or the group that it has prepared or opened,
 * where there is one. No later session has its pass: so close a spent one, but where the store is to be closed
 * by relc_close. */
void relc_close_session(relc_session *session);

/* Gives a session back to its store, where it isn't NULL, and cancels first what it has prepared or opened.
 * The handle ends. A session that is opened later has its pass and its number: its calls count on, `nth` and
 * the store's limit, and stand after all that the pass had seen. So one that has made all its calls is spent
 * again: close it, but where relc_close is to come. The store is the one that the session was opened of, and
 * isn't closed. It takes no memory. Always RELC_DONE. */
uint32_t relc_give_back(relc_store *store, relc_session *session);

/* Makes a closed store of a store that has all its sessions back (relc_give_back): it has the tuples and the
 * history, and no operation is called on it until it is resumed. RELC_DONE: the store's handle ends, and *closed
 * is the caller's. Else RELC_OUTSIDE, where a session that was begun isn't given back, as one that was closed,
 * also before; or RELC_MEMORY; or RELC_SHARED, which is built never to come. In all three the store is as it
 * was and goes on, and *closed is not written. Its time rises with the stripes and the passes, and not with the
 * tuples. */
uint32_t relc_close(relc_store *store, relc_closed **closed);

/* Makes a store of a closed one again, by texts and a frame as relc_open_with takes them. It has the tuples of the
 * closed store, and its history goes on: the first call's place is the number of entries that were made before, of
 * which a group is one. The specification is that of the closed store, shapes among its operations, or that with
 * further operations behind its own: those of `op` lines where no shapes were there, and those of shapes.
 * Operations keep their numbers. `rows` is as it was (else RELC_OTHER); plans, limit and seed may be others (the
 * seed is that of tables that are made from now on). There may be more sessions than before, and not fewer. None
 * is begun: one that is opened has the pass of its number, so that its calls count on, `nth` and the limit, and
 * stand after all that were made before.
 *
 * RELC_DONE: the closed store's handle ends, and *store is the caller's. Else the closed store is as it was, and may
 * be resumed again, and *store is not written: RELC_OPTIONS, RELC_SESSIONS, RELC_LIMIT, then what relc_open_with
 * answers of the texts, then RELC_OTHER, in that order of tests, or RELC_MEMORY. Its time rises with the texts, the
 * stripes and the passes: no tuple is copied, and no call made again. */
uint32_t relc_resume(relc_closed *closed, const uint8_t *text, size_t length, const uint8_t *shapes, size_t shapes_length,
                     const uint8_t *plans, size_t plans_length, relc_open_frame *frame, relc_store **store);

/* Drops a closed store, where it isn't NULL: its tuples are gone. */
void relc_drop_closed(relc_closed *closed);

#ifdef __cplusplus
}
#endif

#endif
