/* An inverted index, to which four threads add documents, from which they drop some, and in which they look words up.
 * Its specification, index.relc, has the documents of a word, and the words of a document; the program reads it from
 * the file that its one word names. Words and documents are texts: relc_texts has their numbers.
 *
 *     index FILE
 */
#include "relc_texts.h"
#include "relc_wait.h"

#include <pthread.h>
#include <stdio.h>
#include <stdlib.h>
#include <string.h>

enum { THREADS = 4, DOCUMENTS = 60, WORDS = 40, VOCABULARY = 200, MAX_TEXT = 1 << 16 };

/* of this many documents of a thread it drops one */
enum { DROPPED = 5 };

/* the operations, in the order of their names below, and their numbers in the store */
enum { ADD, DROP, DOCUMENTS_OF, FIND, LIST, OPERATIONS };
static const char *const NAMES[OPERATIONS] = {"add", "drop", "documents", "find", "list"};
static uint32_t numbers[OPERATIONS];
static relc_waiting *waiting;
static relc_texts *texts;

struct indexer {
    pthread_t thread;
    relc_session *session;
    relc_frame frame;
    relc_page page;
    uint64_t number, added, dropped, found;
};

static void check(int holds, const char *what)
{
    if (!holds) {
        fprintf(stderr, "index: %s\n", what);
        exit(1);
    }
}

/* the number of a text of these parts */
static uint64_t number_of(const char *form, uint64_t first, uint64_t second)
{
    char text[64];
    uint64_t number = 0;
    int length = snprintf(text, sizeof text, form, (unsigned long long)first, (unsigned long long)second);
    check(relc_number_text(texts, text, (size_t)length, &number) == RELC_DONE, "there is memory for texts");
    return number;
}

static uint64_t word(uint64_t number)
{
    return number_of("word-%llu", number, 0);
}

static uint64_t document(uint64_t thread, uint64_t number)
{
    return number_of("document-%llu-%llu", thread, number);
}

/* Calls an operation by its first `count` values, and waits for others; how many rows it has. */
static uint64_t call(struct indexer *indexer, int op, uint32_t count, uint64_t a, uint64_t b, uint64_t c)
{
    relc_frame *frame = &indexer->frame;
    frame->op = numbers[op];
    frame->count = count;
    frame->values[0] = a;
    frame->values[1] = b;
    frame->values[2] = c;
    check(relc_call(waiting, indexer->session, frame) == RELC_DONE, "no call is refused");
    return frame->number;
}

/* The cells of a row of the last reply, whose rows are read in order and have so many cells. They are copied
 * a page at a time, so that no call is made for each, and stand in the page until the next one is copied. */
static const uint64_t *row(struct indexer *indexer, uint64_t at, uint64_t width)
{
    relc_page *page = &indexer->page;
    if (at == 0 || at == page->row + page->rows) {
        page->row = at;
        check(relc_rows(indexer->session, page) == RELC_DONE, "there is such a row");
    }
    return &page->cells[(at - page->row) * width];
}

/* the word at a position of a document: every fifth is one that all documents have */
static uint64_t word_at(uint64_t document, uint64_t position)
{
    return word(position % 5 == 0 ? 0 : (document * 7 + position * 13) % VOCABULARY);
}

static void add_document(struct indexer *indexer, uint64_t number)
{
    uint64_t name = document(indexer->number, number);
    for (uint64_t position = 0; position < WORDS; position++) {
        call(indexer, ADD, 3, word_at(number, position), name, position);
        check(indexer->frame.kind == RELC_INSERTED, "a position has one word");
        indexer->added++;
    }
}

/* Drops what the document's list has, which nobody else changes. */
static void drop_document(struct indexer *indexer, uint64_t number)
{
    uint64_t name = document(indexer->number, number), listed[WORDS][2];
    uint64_t rows = call(indexer, LIST, 1, name, 0, 0);
    check(rows == WORDS, "a document has all of its words");
    for (uint64_t at = 0; at < rows; at++)
        memcpy(listed[at], row(indexer, at, 2), sizeof listed[at]);
    for (uint64_t at = 0; at < rows; at++) {
        call(indexer, DROP, 3, listed[at][0], name, listed[at][1]);
        check(indexer->frame.kind == RELC_REMOVED, "what is listed is there");
        indexer->dropped++;
    }
}

/* Looks a word up, and reads the names of the documents that have it. */
static void look_up(struct indexer *indexer, uint64_t number)
{
    uint64_t rows = call(indexer, DOCUMENTS_OF, 1, word(number), 0, 0);
    check(indexer->frame.kind == RELC_ROWS, "the store was opened without a limit of rows");
    for (uint64_t at = 0; at < rows; at++) {
        size_t length = 0;
        const char *name = relc_text(texts, row(indexer, at, 1)[0], &length);
        check(name != NULL && strncmp(name, "document-", 9) == 0, "a word leads to documents");
        indexer->found++;
    }
}

static void *work(void *of)
{
    struct indexer *indexer = of;
    for (uint64_t number = 0; number < DOCUMENTS; number++) {
        add_document(indexer, number);
        look_up(indexer, number % VOCABULARY);
        if (number % DROPPED == DROPPED - 1)
            drop_document(indexer, number);
    }
    return NULL;
}

/* Opens a store by the text of a file, and looks its operations up. */
static relc_store *opened(const char *name)
{
    static uint8_t text[MAX_TEXT];
    FILE *file = fopen(name, "rb");
    check(file != NULL, "the file can be read");
    size_t length = fread(text, 1, sizeof text, file);
    check(feof(file), "the file is shorter than 65,536 bytes");
    fclose(file);
    relc_open_frame frame = {.passes = THREADS, .limit = (uint64_t)1 << 48};
    relc_store *store = NULL;
    uint32_t code = relc_open(text, length, &frame, &store);
    if (code != RELC_DONE)
        fprintf(stderr, "%.*s\n", (int)frame.length, (const char *)frame.refusal);
    check(code == RELC_DONE, "the store is opened");
    for (int op = 0; op < OPERATIONS; op++) {
        relc_operation_frame asked = {.length = (uint32_t)strlen(NAMES[op])};
        memcpy(asked.name, NAMES[op], asked.length);
        check(relc_operation(store, &asked) == RELC_DONE, "the operation is there");
        numbers[op] = asked.op;
    }
    return store;
}

int main(int count, char **words)
{
    check(count == 2, "one word, the file of the specification");
    static struct indexer indexers[THREADS];
    relc_store *store = opened(words[1]);
    check((waiting = relc_open_waiting()) != NULL && (texts = relc_open_texts()) != NULL, "there is memory");
    for (uint64_t at = 0; at < THREADS; at++) {
        indexers[at].number = at;
        check(relc_open_session(store, &indexers[at].session) == RELC_DONE, "there is a session");
        check(pthread_create(&indexers[at].thread, NULL, work, &indexers[at]) == 0, "there is a thread");
    }
    uint64_t left = 0, found = 0, by_words = 0, by_documents = 0;
    for (uint64_t at = 0; at < THREADS; at++) {
        check(pthread_join(indexers[at].thread, NULL) == 0, "the thread ends");
        left += indexers[at].added - indexers[at].dropped;
        found += indexers[at].found;
    }
    /* what was added and not dropped is found by words as by documents */
    for (uint64_t number = 0; number < VOCABULARY; number++)
        by_words += call(&indexers[0], FIND, 1, word(number), 0, 0);
    for (uint64_t thread = 0; thread < THREADS; thread++)
        for (uint64_t number = 0; number < DOCUMENTS; number++)
            by_documents += call(&indexers[0], LIST, 1, document(thread, number), 0, 0);
    check(by_words == left && by_documents == left, "words and documents agree");
    printf("%llu positions, by words and by documents; look-ups came to %llu documents\n", (unsigned long long)left,
        (unsigned long long)found);
    for (uint64_t at = 0; at < THREADS; at++)
        relc_close_session(indexers[at].session);
    relc_close_texts(texts);
    relc_close_waiting(waiting);
    relc_close_store(store);
    return 0;
}
