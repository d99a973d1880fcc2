/* The same calls on a table of SQLite in memory, with an index for each direction: one connection, which threads share
 * under a lock, and one prepared statement for each operation. `sh bench/embed.sh` builds and runs it where SQLite is.
 *
 *     sqlite NODES CALLS */
#include "mixes.h"

#include <pthread.h>
#include <sqlite3.h>

static const char TABLE[] =
    "create table edges (src integer, dst integer, weight integer, primary key (src, dst)) without rowid;"
    "create index entering on edges (dst, src, weight);";

static const char *const STATEMENTS[OPERATIONS] = {
    "select dst, weight from edges where src = ?1",
    "select src, weight from edges where dst = ?1",
    "insert or ignore into edges values (?1, ?2, ?3)",
    "delete from edges where src = ?1 and dst = ?2 returning weight",
};

struct store {
    sqlite3 *database;
    sqlite3_stmt *statements[OPERATIONS];
    pthread_mutex_t lock;
};

struct side {
    struct store *store;
    const struct call *calls;
    size_t count;
};

static uint64_t make(struct store *store, const struct call *call)
{
    uint64_t read = 0;
    pthread_mutex_lock(&store->lock);
    sqlite3_stmt *statement = store->statements[call->operation];
    sqlite3_bind_int64(statement, 1, (sqlite3_int64)(call->operation == PRED ? call->target : call->source));
    if (call->operation >= INS)
        sqlite3_bind_int64(statement, 2, (sqlite3_int64)call->target);
    if (call->operation == INS)
        sqlite3_bind_int64(statement, 3, (sqlite3_int64)call->weight);
    int code;
    while ((code = sqlite3_step(statement)) == SQLITE_ROW)
        read += (uint64_t)sqlite3_column_int64(statement, 0);
    WANT(code == SQLITE_DONE);
    sqlite3_reset(statement);
    pthread_mutex_unlock(&store->lock);
    return read;
}

static void *work(void *of)
{
    const struct side *side = of;
    uint64_t read = 0;
    for (size_t at = 0; at < side->count; at++)
        read += make(side->store, &side->calls[at]);
    return (void *)(uintptr_t)read;
}

static void open_store(struct store *store)
{
    WANT(sqlite3_open(":memory:", &store->database) == SQLITE_OK);
    WANT(sqlite3_exec(store->database, TABLE, NULL, NULL, NULL) == SQLITE_OK);
    for (int operation = 0; operation < OPERATIONS; operation++)
        WANT(sqlite3_prepare_v2(store->database, STATEMENTS[operation], -1, &store->statements[operation], NULL) ==
            SQLITE_OK);
    WANT(pthread_mutex_init(&store->lock, NULL) == 0);
}

static void close_store(struct store *store)
{
    for (int operation = 0; operation < OPERATIONS; operation++)
        sqlite3_finalize(store->statements[operation]);
    WANT(sqlite3_close(store->database) == SQLITE_OK);
    pthread_mutex_destroy(&store->lock);
}

static double measure(const struct call *calls, int threads, size_t each)
{
    struct store store;
    open_store(&store);
    struct side sides[4];
    pthread_t ids[4];
    double begun = now();
    for (int side = 0; side < threads; side++) {
        sides[side] = (struct side){&store, calls + (size_t)side * each, each};
        WANT(pthread_create(&ids[side], NULL, work, &sides[side]) == 0);
    }
    for (int side = 0; side < threads; side++)
        WANT(pthread_join(ids[side], NULL) == 0);
    double time = (now() - begun) / (double)each;
    close_store(&store);
    return time;
}

int main(int count, char **words)
{
    WANT(count == 3);
    measure_mixes(measure, "SQLite", strtoull(words[1], NULL, 10), strtoull(words[2], NULL, 10));
    return 0;
}
