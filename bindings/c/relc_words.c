/* What codes and refusals mean, in words. */
#include "relc.h"
#include "relc_rules.h"

#include <string.h>

#define COUNT(list) (sizeof(list) / sizeof *(list))

/* what stands before the rule's name in a refusal */
#define REFUSED "refused "

const char *relc_rule_text(const relc_open_frame *frame)
{
    const size_t before = sizeof REFUSED - 1;
    const size_t name = sizeof relc_rules->name - 1;
    if (frame->length < before + name || memcmp(frame->refusal, REFUSED, before) != 0)
        return NULL;
    for (size_t at = 0; at < COUNT(relc_rules); at++)
        if (memcmp(frame->refusal + before, relc_rules[at].name, name) == 0)
            return relc_rules[at].text;
    return NULL;
}

const char *relc_code_text(uint32_t code)
{
    static const char *const texts[] = {
        [RELC_DONE] = "done",
        [RELC_MEMORY] = "memory was wanted",
        [RELC_BUSY] = "another session stood in the way",
        [RELC_SPENT] = "the session has made as many calls as its store lets it",
        [RELC_OPERATION] = "no operation has this number, or this name, or asks so",
        [RELC_VALUE_COUNT] = "the operation takes another number of values",
        [RELC_PREPARED] = "a call or a group is prepared, or a group is open",
        [RELC_NOT_PREPARED] = "nothing is prepared, and no group open",
        [RELC_NO_ROW] = "the reply has no such row, or there is no such reply",
        [RELC_OPTIONS] = "passes, limit or rows are out of their ranges",
        [RELC_TOO_LONG] = "one of the texts is longer than 2^24 bytes",
        [RELC_LINE] = "the text breaks a rule of lines",
        [RELC_RULE] = "the specification breaks a rule of acceptance",
        [RELC_NONE_LEFT] = "as many sessions were begun as the store has passes",
        [RELC_UNSEEN] = "the session has seen less than what was to be learned",
        [RELC_COUNT] = "a group has no call, or would have more than 16",
        [RELC_NOT_OPEN] = "no group is open",
        [RELC_UNCOVERED] = "what the open group declared doesn't suffice for the call",
        [RELC_NO_CALL] = "the open group had made no call, and is over",
        [RELC_PLAN_LINE] = "the text of the plans breaks a rule of their lines",
        [RELC_PLAN] = "a plan that is written breaks a rule of plans",
        [RELC_SHAPE_LINE] = "the text of the shapes breaks a rule of lines",
        [RELC_SESSIONS] = "the closed store had more sessions",
        [RELC_LIMIT] = "a session of the closed store has made more calls",
        [RELC_OTHER] = "the specification isn't the closed store's with operations behind its own",
        [RELC_OUTSIDE] = "a session of the store isn't given back",
        [RELC_SHARED] = "something of the store is held yet",
    };
    return code < COUNT(texts) ? texts[code] : "no such code";
}
