/* relc_texts.h: texts and their numbers, which threads share. A text column of a store takes the number of a
 * text in its place. Numbers count from 0 in the order in which texts were first told, so rows rise by them, and
 * not by the texts. No text is forgotten before all are. Any function but those that open and close may be
 * called by several threads at once. */
#ifndef RELC_TEXTS_H
#define RELC_TEXTS_H

#include "relc.h"

#ifdef __cplusplus
extern "C" {
#endif

typedef struct relc_texts relc_texts;

/* No texts; NULL where memory was wanted. */
relc_texts *relc_open_texts(void);

/* The number of the text of `length` bytes, which may be any: a new one where it is told for the first time.
 * RELC_DONE: *number is told. Else RELC_MEMORY, and nothing changes. */
uint32_t relc_number_text(relc_texts *texts, const void *text, size_t length, uint64_t *number);

/* The same of a text that was told. RELC_DONE: *number is told. Else RELC_NO_ROW. */
uint32_t relc_find_text(relc_texts *texts, const void *text, size_t length, uint64_t *number);

/* The text with this number, with a byte 0 behind it, and how many bytes it has; NULL where there is none.
 * It stays until the texts are closed. */
const char *relc_text(relc_texts *texts, uint64_t number, size_t *length);

/* Closes the texts, where they aren't NULL. */
void relc_close_texts(relc_texts *texts);

#ifdef __cplusplus
}
#endif

#endif
