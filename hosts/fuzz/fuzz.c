/* A fuzz target over the archive: one input is one call (input.h), which is made several times.
   After each call every byte of both memories and of what stands around them is looked at. A broken promise aborts. */
#define _DEFAULT_SOURCE
#include "buzhnael.h"
#include "input.h"

#include <stdio.h>
#include <stdlib.h>
#include <string.h>
#include <sys/mman.h>

#define MOST ((size_t)5 << 20)
#define PAGE ((size_t)4096)
#define AROUND ((size_t)64)

/* Memory between two pages that nothing may touch. `lent` stands in it with what is looked at on both sides. */
struct area {
    uint8_t *first;
    uint8_t *lent;
    size_t length, before, behind;
};
static struct area sheet_area, run_area, nodes_area, text_area;

/* No byte is 0, so that what was cleared and what was not look different. */
static uint8_t pattern[MOST + 256];

/* The text of the first call that was accepted. */
static uint8_t kept_text[MOST];

static void want(int good, const char *what)
{
    if (!good) {
        fprintf(stderr, "BROKEN: %s\n", what);
        abort();
    }
}

static void make_area(struct area *area)
{
    uint8_t *all = mmap(NULL, MOST + 2 * PAGE, PROT_NONE, MAP_PRIVATE | MAP_ANONYMOUS, -1, 0);

    want(all != MAP_FAILED && mprotect(all + PAGE, MOST, PROT_READ | PROT_WRITE) == 0, "no memory");
    area->first = all + PAGE;
}

/* Lends `length` bytes: at the end of the area, at its beginning, or inside it. */
static void lend(struct area *area, size_t length, unsigned place)
{
    size_t room = MOST - length;
    size_t at = place % 4 == 0 ? room : place % 4 == 1 ? 0 : room / 2 + place % 16;

    if (at > room)
        at = room;
    area->lent = area->first + at;
    area->length = length;
    area->before = at < AROUND ? at : AROUND;
    area->behind = room - at < AROUND ? room - at : AROUND;
}

static void fill(struct area *area, unsigned shift)
{
    memcpy(area->lent - area->before, pattern + shift, area->before + area->length + area->behind);
}

static int around_kept(const struct area *area, unsigned shift)
{
    const uint8_t *was = pattern + shift;

    return memcmp(area->lent - area->before, was, area->before) == 0 &&
           memcmp(area->lent + area->length, was + area->before + area->length, area->behind) == 0;
}

static int untouched(const struct area *area, unsigned shift)
{
    return memcmp(area->lent, pattern + shift + area->before, area->length) == 0;
}

static int zero_from(const struct area *area, size_t at)
{
    const uint8_t *p = area->lent + at;
    size_t left = area->length - at;

    return left == 0 || (p[0] == 0 && memcmp(p, p + 1, left - 1) == 0);
}

/* One call with `room` bytes of text memory. What must hold after any answer is seen to here. */
static int64_t made(const struct call *call, size_t room, unsigned fill_byte)
{
    unsigned shift = fill_byte % 256;
    int64_t answer;

    lend(&nodes_area, call->nodes_length, fill_byte);
    lend(&text_area, room, fill_byte / 4);
    fill(&nodes_area, shift);
    fill(&text_area, shift);
    answer = buzhnael_serialize_md(sheet_area.lent, call->sheet_length, call->own, run_area.lent, call->run_length, call->start,
        call->include, nodes_area.lent, call->nodes_length, text_area.lent, room);
    want(answer >= -10 && answer <= (int64_t)room, "the answer is a length within the room, or minus 1 to 10");
    want(around_kept(&nodes_area, shift) && around_kept(&text_area, shift), "what stands around the memories is untouched");
    want(memcmp(sheet_area.lent, call->sheet, call->sheet_length) == 0, "the sheet is only read");
    want(memcmp(run_area.lent, call->run, call->run_length) == 0, "the run is only read");
    if (answer < 0 && answer > -10) {
        want(untouched(&nodes_area, shift) && untouched(&text_area, shift), "1 to 9 leave both memories untouched");
    } else {
        want(zero_from(&nodes_area, 0), "the node memory is all zero");
        want(zero_from(&text_area, answer < 0 ? 0 : (size_t)answer), "zeros behind the text, or all zero after 10");
    }
    return answer;
}

/* The call gives the kept text again, or is refused by 10 where `may_refuse`; says whether it was written. */
static int same_text(const struct call *call, size_t room, unsigned fill_byte, size_t length, int may_refuse)
{
    int64_t answer = made(call, room, fill_byte);

    if (may_refuse && answer == -10)
        return 0;
    want(answer == (int64_t)length && memcmp(text_area.lent, kept_text, length) == 0, "the same text again");
    return 1;
}

/* The least room, between the text's length and `enough`; one byte less is refused. */
static void least_room(const struct call *call, size_t length, size_t enough, unsigned fill_byte)
{
    size_t low = length, high = enough;

    while (low < high) {
        size_t room = low + (high - low) / 2;
        if (same_text(call, room, fill_byte, length, 1))
            high = room;
        else
            low = room + 1;
    }
    same_text(call, high, fill_byte + 1, length, 0);
    if (high > 0)
        want(made(call, high - 1, fill_byte) == -10, "less than the least room is refused by 10");
}

/* The call was just accepted with `room` bytes. */
static void accepted(const struct call *call, size_t room, size_t length, unsigned fill_byte)
{
    struct call less = *call;

    memcpy(kept_text, text_area.lent, length);
    want(is_utf8(kept_text, length), "the text is UTF-8");
    same_text(call, room, fill_byte, length, 0);
    same_text(call, room + 1 + fill_byte, fill_byte ^ 5, length, 0);
    if (length > 0)
        want(made(call, length - 1, fill_byte) == -10, "less room than the text has is refused by 10");
    if (fill_byte % 8 == 0)
        least_room(call, length, room, fill_byte);
    less.nodes_length = count_nodes(call->sheet, call->sheet_length) * BUZHNAEL_NODE - 1;
    want(made(&less, room, fill_byte) == -9, "too little node memory is refused by 9");
}

static size_t start_of(const uint8_t *head, size_t nodes)
{
    size_t said = two(head + START);

    switch (head[MODE] % 4) {
    case 0: return said % nodes;
    case 1: return 0;
    case 2: return said;
    default: return said << 48 | said >> 8;
    }
}

static size_t nodes_length_of(const uint8_t *head, size_t nodes)
{
    size_t enough = (nodes < 65536 ? nodes : 65536) * BUZHNAEL_NODE;

    switch (head[MODE] / 4 % 8) {
    case 4: return enough - 1;
    case 5: return enough + head[NODES];
    case 6: return two(head + NODES);
    case 7: return head[NODES + 1] % 4 * BUZHNAEL_NODE;
    default: return enough;
    }
}

static size_t large_room(size_t size)
{
    size_t room = 16 * size + 4096;
    return room < MOST / 2 ? room : MOST / 2;
}

static size_t room_of(const uint8_t *head, size_t size)
{
    switch (head[MODE] / 32) {
    case 0: return head[ROOM] % 2;
    case 1: return head[ROOM];
    case 2: return size + head[ROOM];
    default: return large_room(size);
    }
}

static void read_call(struct call *call, const uint8_t *input, size_t size)
{
    size_t nodes;

    call->run = input + HEAD;
    call->run_length = run_length(input, size);
    call->sheet = call->run + call->run_length;
    call->sheet_length = size - HEAD - call->run_length;
    call->own = input[OWN];
    call->include = input[INCLUDE];
    nodes = count_nodes(call->sheet, call->sheet_length);
    call->start = start_of(input, nodes);
    call->nodes_length = nodes_length_of(input, nodes);
    lend(&sheet_area, call->sheet_length, input[FILL] / 16);
    memcpy(sheet_area.lent, call->sheet, call->sheet_length);
    lend(&run_area, call->run_length, input[FILL] / 16);
    memcpy(run_area.lent, call->run, call->run_length);
}

int LLVMFuzzerInitialize(int *argc, char ***argv)
{
    (void)argc;
    (void)argv;
    for (size_t k = 0; k < sizeof pattern; k++)
        pattern[k] = (uint8_t)(k % 255 + 1);
    make_area(&sheet_area);
    make_area(&run_area);
    make_area(&nodes_area);
    make_area(&text_area);
    return 0;
}

int LLVMFuzzerTestOneInput(const uint8_t *input, size_t size)
{
    struct call call;
    size_t room;
    unsigned fill_byte;
    int number;
    int64_t answer;

    if (size < HEAD || size > MOST / 2)
        return 0;
    read_call(&call, input, size);
    fill_byte = input[FILL];
    room = room_of(input, size);
    number = first_refusal(&call);
    answer = made(&call, room, fill_byte);
    if (number != 0) {
        want(answer == -number, "the first question that says no is the answer");
        want(made(&call, 0, fill_byte + 1) == answer, "the same answer again");
        return 0;
    }
    want(answer >= 0 || answer == -10, "what passes questions 1 to 9 is written or refused by 10");
    if (answer == -10) {
        want(made(&call, room, fill_byte) == -10, "the same answer again");
        want(made(&call, room / 2, fill_byte) == -10, "less room than too little is refused by 10");
        room = large_room(size);
        answer = made(&call, room, fill_byte);
    }
    if (answer >= 0)
        accepted(&call, room, (size_t)answer, fill_byte);
    return 0;
}
