/* What librelc has beside the exports of crates/rc_c: its version, shapes and plans that may be none, lines by pointer and
 * length, and how handles are closed, given back, or go on. What is behind a handle ends, and then its block is given back to
 * the allocator that librelc took it from. */
#include "relc.h"

#include <stddef.h>
#include <string.h>

/* A line that is looked up: rc_embed's ShapeFrame. The line's length stands where a name's does. */
struct shape_frame {
    relc_operation_frame operation;
    uint8_t line[RELC_SHAPE];
};
_Static_assert(sizeof(struct shape_frame) == 4240, "ShapeFrame");
_Static_assert(offsetof(struct shape_frame, line) == 144, "ShapeFrame line");

uint32_t relc_open_planned(const uint8_t *text, size_t length, const uint8_t *plans, size_t plans_length,
                           relc_open_frame *frame, relc_store **store);
uint32_t relc_open_shaped(const uint8_t *text, size_t length, const uint8_t *shapes, size_t shapes_length, const uint8_t *plans,
                          size_t plans_length, relc_open_frame *frame, relc_store **store);
uint32_t relc_resume_closed(relc_closed *closed, const uint8_t *text, size_t length, const uint8_t *shapes, size_t shapes_length,
                            const uint8_t *plans, size_t plans_length, relc_open_frame *frame, relc_store **store);
uint32_t relc_shape_of(relc_store *store, struct shape_frame *frame);
uint32_t relc_shut_store(relc_store *store, relc_closed **closed);
void relc_end_store(relc_store *store);
void relc_end_session(relc_session *session);
void relc_end_closed(relc_closed *closed);
uint32_t relc_take_back(relc_store *store, relc_session *session);
void rattle_dealloc(void *block);

uint32_t relc_version(void)
{
    return RELC_VERSION;
}

/* A text of shapes, or of plans. */
struct text {
    const uint8_t *bytes;
    size_t length;
};

/* The text, or an empty one where there is none. */
static struct text or_empty(const uint8_t *bytes, size_t length)
{
    static const uint8_t none;
    return bytes == NULL ? (struct text){&none, 0} : (struct text){bytes, length};
}

uint32_t relc_open_with_plans(const uint8_t *text, size_t length, const uint8_t *plans, size_t plans_length,
                              relc_open_frame *frame, relc_store **store)
{
    struct text by_hand = or_empty(plans, plans_length);
    return relc_open_planned(text, length, by_hand.bytes, by_hand.length, frame, store);
}

uint32_t relc_open_with(const uint8_t *text, size_t length, const uint8_t *shapes, size_t shapes_length, const uint8_t *plans,
                        size_t plans_length, relc_open_frame *frame, relc_store **store)
{
    struct text further = or_empty(shapes, shapes_length), by_hand = or_empty(plans, plans_length);
    return relc_open_shaped(text, length, further.bytes, further.length, by_hand.bytes, by_hand.length, frame, store);
}

uint32_t relc_resume(relc_closed *closed, const uint8_t *text, size_t length, const uint8_t *shapes, size_t shapes_length,
                     const uint8_t *plans, size_t plans_length, relc_open_frame *frame, relc_store **store)
{
    struct text further = or_empty(shapes, shapes_length), by_hand = or_empty(plans, plans_length);
    uint32_t code =
        relc_resume_closed(closed, text, length, further.bytes, further.length, by_hand.bytes, by_hand.length, frame, store);
    /* (its place is empty then) */
    if (code == RELC_DONE)
        relc_drop_closed(closed);
    return code;
}

uint32_t relc_shape(relc_store *store, const uint8_t *line, size_t length, relc_operation_frame *frame)
{
    if (length > RELC_SHAPE)
        return RELC_OPERATION;
    struct shape_frame asked = {.operation = *frame};
    asked.operation.length = (uint32_t)length;
    memcpy(asked.line, line, length);
    uint32_t code = relc_shape_of(store, &asked);
    if (code == RELC_DONE) {
        asked.operation.length = frame->length;
        *frame = asked.operation;
    }
    return code;
}

void relc_close_store(relc_store *store)
{
    if (store == NULL)
        return;
    relc_end_store(store);
    rattle_dealloc(store);
}

uint32_t relc_close(relc_store *store, relc_closed **closed)
{
    uint32_t code = relc_shut_store(store, closed);
    if (code == RELC_DONE)
        rattle_dealloc(store);
    return code;
}

void relc_drop_closed(relc_closed *closed)
{
    if (closed == NULL)
        return;
    relc_end_closed(closed);
    rattle_dealloc(closed);
}

void relc_close_session(relc_session *session)
{
    if (session == NULL)
        return;
    relc_end_session(session);
    rattle_dealloc(session);
}

uint32_t relc_give_back(relc_store *store, relc_session *session)
{
    if (session == NULL)
        return RELC_DONE;
    uint32_t code = relc_take_back(store, session);
    rattle_dealloc(session);
    return code;
}
