/* Questions 1 to 9, as a second opinion on the answer of the library. */
#include "buzhnael.h"
#include "input.h"

#include <string.h>

/* The length of the character at `p`, or 0 where none begins there. */
static size_t character(const uint8_t *p, size_t left)
{
    size_t length = p[0] < 0x80 ? 1 : p[0] < 0xC2 ? 0 : p[0] < 0xE0 ? 2 : p[0] < 0xF0 ? 3 : p[0] < 0xF5 ? 4 : 0;

    if (length == 0 || length > left)
        return 0;
    for (size_t k = 1; k < length; k++)
        if ((p[k] & 0xC0) != 0x80)
            return 0;
    /* longer than need be, a surrogate, beyond the last */
    if ((p[0] == 0xE0 && p[1] < 0xA0) || (p[0] == 0xED && p[1] > 0x9F) || (p[0] == 0xF0 && p[1] < 0x90) ||
        (p[0] == 0xF4 && p[1] > 0x8F))
        return 0;
    return length;
}

int is_utf8(const uint8_t *bytes, size_t length)
{
    for (size_t at = 0, step; at < length; at += step)
        if ((step = character(bytes + at, length - at)) == 0)
            return 0;
    return 1;
}

/* Moves `at` behind the field that stands there; 0 where it does not end inside. */
static int pass(const uint8_t *bytes, size_t length, size_t *at)
{
    if (length - *at < 3 || length - *at - 3 < two(bytes + *at + 1))
        return 0;
    *at += 3 + two(bytes + *at + 1);
    return 1;
}

size_t count_nodes(const uint8_t *sheet, size_t length)
{
    size_t nodes = 1;

    for (size_t at = 0, began = 0; at < length && pass(sheet, length, &at); began = at)
        nodes += sheet[began] == 1 || sheet[began] == 4 || sheet[began] == 5;
    return nodes;
}

static int fields_end(const struct call *call)
{
    for (size_t at = 0; at < call->sheet_length;)
        if (call->sheet[at] < 1 || call->sheet[at] > 6 || !pass(call->sheet, call->sheet_length, &at))
            return 0;
    return 1;
}

static int rules_kept(const struct call *call)
{
    size_t open = 0;
    int before = 0;

    for (size_t at = 0; at < call->sheet_length;) {
        int tag = call->sheet[at];
        size_t body = two(call->sheet + at + 1);

        if ((before == 2) != (tag == 3) || (tag == 2 && before != 1 && before != 3))
            return 0;
        if (((tag == 1 || tag == 2) && body == 0) || (tag == 6 && (body != 0 || open == 0)))
            return 0;
        open += tag == 1;
        open -= tag == 6;
        before = tag;
        pass(call->sheet, call->sheet_length, &at);
    }
    return open == 0 && before != 2;
}

static int bodies_are_utf8(const struct call *call)
{
    for (size_t at = 0; at < call->sheet_length; pass(call->sheet, call->sheet_length, &at))
        if (!is_utf8(call->sheet + at + 3, two(call->sheet + at + 1)))
            return 0;
    return 1;
}

static int within_limits(const struct call *call)
{
    size_t open = 0;

    for (size_t at = 0; at < call->sheet_length; pass(call->sheet, call->sheet_length, &at)) {
        open += call->sheet[at] == 1;
        open -= call->sheet[at] == 6;
        if (open > 100)
            return 0;
    }
    return count_nodes(call->sheet, call->sheet_length) <= BUZHNAEL_NODES_MOST;
}

static int no_blockquote(const struct call *call)
{
    for (size_t at = 0; at < call->sheet_length; pass(call->sheet, call->sheet_length, &at))
        if (call->sheet[at] == 1 && two(call->sheet + at + 1) == 10 && memcmp(call->sheet + at + 3, "blockquote", 10) == 0)
            return 0;
    return 1;
}

static int is_skip_list(const struct call *call)
{
    size_t names = 0, at = 0;

    if (call->own == 0)
        return 1;
    while (at < call->run_length) {
        size_t began = at;
        if (call->run[at] != 7 || !pass(call->run, call->run_length, &at))
            return 0;
        if (at == began + 3 || at > began + 3 + 64 || !is_utf8(call->run + began + 3, at - began - 3) || ++names > 16)
            return 0;
    }
    return 1;
}

int first_refusal(const struct call *call)
{
    size_t nodes;

    if (call->sheet_length > BUZHNAEL_SHEET_MOST)
        return BUZHNAEL_SHEET_LENGTH;
    if (!fields_end(call))
        return BUZHNAEL_FIELDS;
    if (!rules_kept(call))
        return BUZHNAEL_RULES;
    if (!bodies_are_utf8(call))
        return BUZHNAEL_UTF8;
    if (!within_limits(call))
        return BUZHNAEL_LIMITS;
    if (!no_blockquote(call))
        return BUZHNAEL_BLOCKQUOTE;
    nodes = count_nodes(call->sheet, call->sheet_length);
    if (call->start >= nodes)
        return BUZHNAEL_START;
    if (!is_skip_list(call))
        return BUZHNAEL_SKIP_LIST;
    return call->nodes_length < nodes * BUZHNAEL_NODE ? BUZHNAEL_NODE_MEMORY : 0;
}
