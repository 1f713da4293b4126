/* Changes inputs field by field, so that most of them stay sheets that pass the questions. */
#include "input.h"

#include <string.h>

size_t LLVMFuzzerMutate(uint8_t *data, size_t size, size_t most);

static const char *const elements[] = {
    "article", "section", "div", "p", "h1", "h2", "h3", "h4", "h5", "h6", "ul", "ol", "dl", "table", "hr", "li", "tr", "th", "td",
    "br", "a", "img", "pre", "code", "strong", "b", "em", "i", "thead", "tbody", "span", "script", "style", "meta", "head",
    "blockquote",
};
static const char *const attributes[] = {"href", "title", "src", "alt", "srcset", "start", "value", "class", "data-lang"};
static const char *const pieces[] = {
    "\n", " ", "  ", "\t", "\r", "\f", "\v", "\n\n", "*", "**", "_", "`", "```", "~~~", "|", "\\", "\\|", "[", "]", "![", "](", "!",
    "<", ">", "# ", "## ", "- ", "+ ", "1. ", "2) ", "999999999. ", "=", "===", "---", "&", "&amp;", "&#35;", "\"", "'", "(", ")", "~",
    "\xC2\xA0", "\xC2\x85", "\xE2\x80\x83", "\xE3\x80\x80", "\xC3\xA9", "\xF0\x9F\x98\x80", "\xEF\xBB\xBF", "http://a/b", "a(b",
    "a.png 1x, b.png 2x", "language-rust", "-4", " +007", "999999999", "1000000000", "x", "word", "two words",
};
#define COUNT(list) (sizeof(list) / sizeof(list)[0])

static uint64_t state;

static size_t below(size_t n)
{
    uint64_t z = state += 0x9E3779B97F4A7C15u;

    z = (z ^ z >> 30) * 0xBF58476D1CE4E5B9u;
    z = (z ^ z >> 27) * 0x94D049BB133111EBu;
    return (size_t)((z ^ z >> 31) % n);
}

/* The input in the making, and its fields from the sheet's beginning; at[count] is the end of the last whole one. */
#define FIELDS_MOST 8192
static struct {
    uint8_t *bytes;
    size_t size, most;
    size_t count, at[FIELDS_MOST + 1];
} in;

/* What is put in: made here first, since it may come from the input itself. */
static uint8_t scratch[1 << 16];
static size_t scratched;

static void scratch_bytes(const void *bytes, size_t length)
{
    if (length <= sizeof scratch - scratched) {
        memcpy(scratch + scratched, bytes, length);
        scratched += length;
    }
}

static void scratch_field(uint8_t tag, const char *body)
{
    size_t length = strlen(body);
    uint8_t head[3] = {tag, (uint8_t)(length >> 8), (uint8_t)length};

    scratch_bytes(head, 3);
    scratch_bytes(body, length);
}

/* Puts the scratch in the place of `drop` bytes, if the input may be that long. */
static int splice(size_t at, size_t drop)
{
    size_t put = scratched;

    scratched = 0;
    if (put > drop && put - drop > in.most - in.size)
        return 0;
    memmove(in.bytes + at + put, in.bytes + at + drop, in.size - at - drop);
    memcpy(in.bytes + at, scratch, put);
    in.size = in.size - drop + put;
    return 1;
}

static void find_fields(void)
{
    size_t at = HEAD + run_length(in.bytes, in.size);

    for (in.count = 0; in.count < FIELDS_MOST; in.count++) {
        in.at[in.count] = at;
        if (in.size - at < 3 || in.size - at - 3 < two(in.bytes + at + 1))
            return;
        at += 3 + two(in.bytes + at + 1);
    }
    in.at[in.count] = at;
}

static int tag(size_t k)
{
    return k < in.count ? in.bytes[in.at[k]] : 0;
}

/* The place behind the attributes that stand at k. */
static size_t past_attributes(size_t k)
{
    while (tag(k) == 2 || tag(k) == 3)
        k++;
    return k;
}

/* The place behind the node that begins at k. */
static size_t node_end(size_t k)
{
    size_t open = 0;

    for (; k < in.count; k++) {
        open += tag(k) == 1;
        open -= tag(k) == 6 && open > 0;
        if (open == 0)
            return k + 1;
    }
    return in.count;
}

static size_t any_place(void)
{
    return past_attributes(below(in.count + 1));
}

/* A node, or in.count where none was hit on. */
static size_t any_node(void)
{
    for (int tries = 0; tries < 8 && in.count > 0; tries++) {
        size_t k = below(in.count);
        if (tag(k) == 1 || tag(k) == 4 || tag(k) == 5)
            return k;
    }
    return in.count;
}

static size_t any_tagged(int a, int b)
{
    for (int tries = 0; tries < 16 && in.count > 0; tries++) {
        size_t k = below(in.count);
        if (tag(k) == a || tag(k) == b)
            return k;
    }
    return in.count;
}

/* `blockquote`, the last, is refused: it comes seldom. */
static const char *any_element(void)
{
    return elements[below(below(32) ? COUNT(elements) - 1 : COUNT(elements))];
}

static const char *any_piece(void)
{
    return pieces[below(COUNT(pieces))];
}

static void scratch_open(void)
{
    scratch_field(1, any_element());
    if (below(4) == 0) {
        scratch_field(2, attributes[below(COUNT(attributes))]);
        scratch_field(3, any_piece());
    }
}

static int insert_element(void)
{
    scratch_open();
    if (below(3))
        scratch_field(4, any_piece());
    scratch_field(6, "");
    return splice(in.at[any_place()], 0);
}

static int insert_text(void)
{
    scratch_field(below(8) ? 4 : 5, any_piece());
    return splice(in.at[any_place()], 0);
}

static int remove_node(void)
{
    size_t k = any_node();
    return k < in.count && splice(in.at[k], in.at[node_end(k)] - in.at[k]);
}

/* Puts a copy of a node somewhere. */
static int copy_node(void)
{
    size_t k = any_node();

    if (k == in.count)
        return 0;
    scratch_bytes(in.bytes + in.at[k], in.at[node_end(k)] - in.at[k]);
    return splice(in.at[below(2) ? k : any_place()], 0);
}

/* Two nodes behind one another change places. */
static int swap_nodes(void)
{
    size_t k = any_node(), next = k < in.count ? node_end(k) : k, end;

    if (next >= in.count || tag(next) == 6)
        return 0;
    end = node_end(next);
    scratch_bytes(in.bytes + in.at[next], in.at[end] - in.at[next]);
    scratch_bytes(in.bytes + in.at[k], in.at[next] - in.at[k]);
    return scratched == in.at[end] - in.at[k] ? splice(in.at[k], scratched) : (scratched = 0, 0);
}

static int rename_element(void)
{
    size_t k = any_tagged(1, 1);

    if (k == in.count)
        return 0;
    scratch_field(1, any_element());
    return splice(in.at[k], in.at[k + 1] - in.at[k]);
}

/* Puts nodes that stand behind one another into a new element, now and then into many. */
static int wrap(void)
{
    size_t k = any_node(), end, times = below(16) ? 1 : 1 + below(100);

    if (k == in.count)
        return 0;
    end = node_end(k);
    while (below(2) && end < in.count && tag(end) != 6)
        end = node_end(end);
    for (size_t n = 0; n < times; n++)
        scratch_field(6, "");
    if (!splice(in.at[end], 0))
        return 0;
    for (size_t n = 0; n < times; n++)
        scratch_open();
    return splice(in.at[k], 0);
}

static int unwrap(void)
{
    size_t k = any_tagged(1, 1), end, inside;

    if (k == in.count)
        return 0;
    end = node_end(k);
    inside = past_attributes(k + 1);
    if (tag(end - 1) == 6)
        splice(in.at[end - 1], 3);
    return splice(in.at[k], in.at[inside] - in.at[k]);
}

static int add_attribute(void)
{
    size_t k = any_tagged(1, 3);

    if (k == in.count)
        return 0;
    scratch_field(2, attributes[below(COUNT(attributes))]);
    scratch_field(3, any_piece());
    return splice(in.at[k + 1], 0);
}

static int rename_attribute(void)
{
    size_t k = any_tagged(2, 2);

    if (k == in.count)
        return 0;
    scratch_field(2, attributes[below(COUNT(attributes))]);
    return splice(in.at[k], in.at[k + 1] - in.at[k]);
}

/* A place in the body of a field where a character begins, or its end. */
static size_t any_character(const uint8_t *body, size_t length)
{
    size_t at = below(length + 1);

    while (at < length && (body[at] & 0xC0) == 0x80)
        at++;
    return at;
}

/* The body of a text or a value: pieces put in, a stretch left out or doubled. */
static int edit_body(void)
{
    size_t k = any_tagged(below(3) ? 4 : 3, 4), length, from, to;
    uint8_t head[3];
    const uint8_t *body;

    if (k == in.count)
        return 0;
    body = in.bytes + in.at[k] + 3;
    length = two(body - 2);
    from = any_character(body, length);
    to = below(3) ? from : from + any_character(body + from, length - from);
    scratch_bytes("\0\0\0", 3);
    scratch_bytes(body, from);
    for (size_t n = below(4); n > 0; n--) {
        const char *piece = any_piece();
        scratch_bytes(piece, strlen(piece));
    }
    for (size_t n = to > from && below(2) ? 2 : 0; n > 0; n--)
        scratch_bytes(body + from, to - from);
    scratch_bytes(body + to, length - to);
    if (scratched - 3 > 65535)
        return scratched = 0;
    head[0] = (uint8_t)tag(k);
    head[1] = (uint8_t)((scratched - 3) >> 8);
    head[2] = (uint8_t)(scratched - 3);
    memcpy(scratch, head, 3);
    return splice(in.at[k], in.at[k + 1] - in.at[k]);
}

static int edit_head(void)
{
    static const uint8_t edges[] = {0, 1, 2, 8, 16, 64, 127, 128, 255};
    uint8_t *byte = in.bytes + below(RUN);

    *byte = below(2) ? (uint8_t)below(256) : edges[below(COUNT(edges))];
    return 1;
}

/* A name more in the run, or one less. */
static int edit_run(void)
{
    size_t length = run_length(in.bytes, in.size), put;

    in.bytes[OWN] = 1;
    if (length > 3 && below(3) == 0) {
        size_t name = 3 + two(in.bytes + HEAD + 1);
        put = name <= length ? length - name : 0;
        splice(HEAD, length - put);
    } else {
        scratch_field(7, any_element());
        put = length + scratched;
        if (put > 65535 || !splice(HEAD, 0))
            return scratched = 0;
    }
    in.bytes[RUN] = (uint8_t)(put >> 8);
    in.bytes[RUN + 1] = (uint8_t)put;
    return 1;
}

static int any_bytes(void)
{
    in.size = LLVMFuzzerMutate(in.bytes, in.size, in.most);
    return in.size >= HEAD;
}

static int (*const changes[])(void) = {
    insert_element, insert_element, insert_text, insert_text, remove_node, remove_node, copy_node, swap_nodes, rename_element,
    rename_element, rename_element, wrap, wrap, unwrap, add_attribute, rename_attribute, edit_body, edit_body, edit_body, edit_body,
    edit_head, edit_run, any_bytes,
};

static int begin(uint8_t *bytes, size_t size, size_t most, unsigned seed)
{
    static const uint8_t plain[HEAD] = {[MODE] = 0xE1};

    state = seed;
    scratched = 0;
    in.bytes = bytes;
    in.size = size;
    in.most = most;
    if (most < HEAD)
        return 0;
    if (size < HEAD) {
        memcpy(bytes, plain, HEAD);
        in.size = HEAD;
    }
    return 1;
}

size_t LLVMFuzzerCustomMutator(uint8_t *bytes, size_t size, size_t most, unsigned seed)
{
    if (!begin(bytes, size, most, seed))
        return LLVMFuzzerMutate(bytes, size, most);
    for (size_t n = 1 + below(4), tries = 0; n > 0 && tries < 16 && in.size >= HEAD; tries++) {
        find_fields();
        n -= changes[below(COUNT(changes))]() != 0;
        scratched = 0;
    }
    return in.size;
}

/* The first input, with a node of the second put somewhere. */
size_t LLVMFuzzerCustomCrossOver(const uint8_t *first, size_t first_size, const uint8_t *second, size_t second_size, uint8_t *out,
    size_t most, unsigned seed)
{
    static uint8_t other[1 << 16];
    size_t node, length;

    if (first_size > most || second_size > sizeof other || second_size < HEAD || first_size < HEAD)
        return 0;
    memcpy(other, second, second_size);
    if (!begin(other, second_size, sizeof other, seed))
        return 0;
    find_fields();
    node = any_node();
    if (node == in.count)
        return 0;
    length = in.at[node_end(node)] - in.at[node];
    memcpy(out, first, first_size);
    scratch_bytes(other + in.at[node], length);
    in.bytes = out;
    in.size = first_size;
    in.most = most;
    find_fields();
    splice(in.at[any_place()], 0);
    return in.size;
}
