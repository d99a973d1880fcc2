/* A tree by the texts, of POSIX's tsearch, and a list by their numbers, behind a lock that readers share. */
#include "relc_texts.h"

#include <pthread.h>
#include <search.h>
#include <stdlib.h>
#include <string.h>

struct text {
    uint64_t number;
    size_t length;
    const char *bytes; /* behind it, but of one that is sought */
};

struct relc_texts {
    pthread_rwlock_t lock;
    void *tree;
    struct text **list;
    size_t count, room;
};

static int compare(const void *one, const void *other)
{
    const struct text *a = one, *b = other;
    size_t shorter = a->length < b->length ? a->length : b->length;
    int order = shorter > 0 ? memcmp(a->bytes, b->bytes, shorter) : 0;
    return order != 0 ? order : (a->length > b->length) - (a->length < b->length);
}

relc_texts *relc_open_texts(void)
{
    relc_texts *texts = calloc(1, sizeof *texts);
    if (texts == NULL)
        return NULL;
    if (pthread_rwlock_init(&texts->lock, NULL) == 0)
        return texts;
    free(texts);
    return NULL;
}

void relc_close_texts(relc_texts *texts)
{
    if (texts == NULL)
        return;
    for (size_t at = 0; at < texts->count; at++) {
        tdelete(texts->list[at], &texts->tree, compare);
        free(texts->list[at]);
    }
    free(texts->list);
    pthread_rwlock_destroy(&texts->lock);
    free(texts);
}

/* the text that was told, under the lock */
static struct text *found(relc_texts *texts, const struct text *sought)
{
    struct text **node = tfind(sought, &texts->tree, compare);
    return node != NULL ? *node : NULL;
}

/* the text with a new number, under the lock, which is held alone; NULL where memory was wanted */
static struct text *added(relc_texts *texts, const struct text *sought)
{
    if (texts->count == texts->room) {
        size_t room = texts->room > 0 ? 2 * texts->room : 16;
        struct text **list = realloc(texts->list, room * sizeof *list);
        if (list == NULL)
            return NULL;
        texts->list = list;
        texts->room = room;
    }
    if (sought->length >= SIZE_MAX - sizeof(struct text))
        return NULL;
    struct text *text = malloc(sizeof *text + sought->length + 1);
    if (text == NULL)
        return NULL;
    char *bytes = (char *)(text + 1);
    if (sought->length > 0)
        memcpy(bytes, sought->bytes, sought->length);
    bytes[sought->length] = 0;
    *text = (struct text){texts->count, sought->length, bytes};
    if (tsearch(text, &texts->tree, compare) == NULL) {
        free(text);
        return NULL;
    }
    texts->list[texts->count++] = text;
    return text;
}

uint32_t relc_find_text(relc_texts *texts, const void *bytes, size_t length, uint64_t *number)
{
    struct text sought = {0, length, bytes};
    pthread_rwlock_rdlock(&texts->lock);
    struct text *text = found(texts, &sought);
    pthread_rwlock_unlock(&texts->lock);
    if (text == NULL)
        return RELC_NO_ROW;
    *number = text->number;
    return RELC_DONE;
}

uint32_t relc_number_text(relc_texts *texts, const void *bytes, size_t length, uint64_t *number)
{
    if (relc_find_text(texts, bytes, length, number) == RELC_DONE)
        return RELC_DONE;
    struct text sought = {0, length, bytes};
    pthread_rwlock_wrlock(&texts->lock);
    /* (another thread may have told it meanwhile) */
    struct text *text = found(texts, &sought);
    if (text == NULL)
        text = added(texts, &sought);
    pthread_rwlock_unlock(&texts->lock);
    if (text == NULL)
        return RELC_MEMORY;
    *number = text->number;
    return RELC_DONE;
}

const char *relc_text(relc_texts *texts, uint64_t number, size_t *length)
{
    pthread_rwlock_rdlock(&texts->lock);
    struct text *text = number < texts->count ? texts->list[number] : NULL;
    pthread_rwlock_unlock(&texts->lock);
    if (text == NULL)
        return NULL;
    *length = text->length;
    return text->bytes;
}
