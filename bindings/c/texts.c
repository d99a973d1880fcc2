/* Tests relc_texts.h: numbers and texts of one thread, and of several that tell the same texts. */
#include "relc_texts.h"

#include <pthread.h>
#include <stdio.h>
#include <stdlib.h>
#include <string.h>

#define CHECK(is)                                                          \
    do {                                                                   \
        if (!(is)) {                                                       \
            fprintf(stderr, "%s:%d: not so: %s\n", __FILE__, __LINE__, #is); \
            exit(1);                                                       \
        }                                                                  \
    } while (0)

#define THREADS 4
#define TEXTS 1000

static relc_texts *shared;

static void *tell(void *told)
{
    uint64_t *numbers = told;
    for (int at = 0; at < TEXTS; at++) {
        char text[16];
        size_t length = (size_t)snprintf(text, sizeof text, "text %d", at * 7 % TEXTS);
        CHECK(relc_number_text(shared, text, length, &numbers[at * 7 % TEXTS]) == RELC_DONE);
    }
    return NULL;
}

int main(void)
{
    relc_texts *texts = relc_open_texts();
    CHECK(texts != NULL);
    uint64_t number = 7;
    size_t length = 0;
    CHECK(relc_find_text(texts, "run", 3, &number) == RELC_NO_ROW && number == 7);
    CHECK(relc_text(texts, 0, &length) == NULL);
    CHECK(relc_number_text(texts, "run", 3, &number) == RELC_DONE && number == 0);
    CHECK(relc_number_text(texts, "ru", 2, &number) == RELC_DONE && number == 1);
    CHECK(relc_number_text(texts, "", 0, &number) == RELC_DONE && number == 2);
    CHECK(relc_number_text(texts, "r\0n", 3, &number) == RELC_DONE && number == 3);
    CHECK(relc_number_text(texts, "run", 3, &number) == RELC_DONE && number == 0);
    CHECK(relc_find_text(texts, "r\0n", 3, &number) == RELC_DONE && number == 3);
    CHECK(strcmp(relc_text(texts, 1, &length), "ru") == 0 && length == 2);
    CHECK(memcmp(relc_text(texts, 3, &length), "r\0n", 4) == 0 && length == 3);
    relc_close_texts(texts);
    relc_close_texts(NULL);

    shared = relc_open_texts();
    CHECK(shared != NULL);
    pthread_t threads[THREADS];
    static uint64_t numbers[THREADS][TEXTS];
    for (int at = 0; at < THREADS; at++)
        CHECK(pthread_create(&threads[at], NULL, tell, numbers[at]) == 0);
    for (int at = 0; at < THREADS; at++)
        pthread_join(threads[at], NULL);
    for (int at = 0; at < TEXTS; at++) {
        char text[16];
        snprintf(text, sizeof text, "text %d", at);
        for (int thread = 0; thread < THREADS; thread++)
            CHECK(numbers[thread][at] == numbers[0][at]);
        CHECK(strcmp(relc_text(shared, numbers[0][at], &length), text) == 0);
    }
    CHECK(relc_text(shared, TEXTS, &length) == NULL);
    relc_close_texts(shared);
    puts("texts: as they were told");
    return 0;
}
