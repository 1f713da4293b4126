/* An input of the fuzzer: a head, the run of the skip list, the sheet. */
#ifndef INPUT_H
#define INPUT_H

#include <stddef.h>
#include <stdint.h>

/* The head, byte by byte. Numbers of two bytes are big-endian. */
enum head {
    START = 0,       /* two bytes: the start number */
    MODE = 2,        /* how the start (bits 0 and 1), the node memory (2 to 4) and the text memory (5 to 7) are chosen */
    INCLUDE = 3,     /* the flag */
    OWN = 4,         /* 0 for the default skip list */
    ROOM = 5,        /* the length of a small text memory */
    NODES = 6,       /* two bytes: the length of an arbitrary node memory */
    FILL = 8,        /* where the memories stand and what they hold */
    RUN = 9,         /* two bytes: the length of the run */
    HEAD = 11
};

static inline size_t two(const uint8_t *p)
{
    return (size_t)p[0] << 8 | p[1];
}

/* The length of the run in an input of `size` bytes, which is at least HEAD. */
static inline size_t run_length(const uint8_t *input, size_t size)
{
    size_t said = two(input + RUN), most = size - HEAD;
    return said < most ? said : most;
}

/* A call, but for the text memory. */
struct call {
    const uint8_t *sheet, *run;
    size_t sheet_length, run_length;
    uint8_t own, include;
    size_t start, nodes_length;
};

/* The number of the first of questions 1 to 9 that says no, or 0. */
int first_refusal(const struct call *call);

/* The nodes of a sheet, the fragment included, as far as its fields are whole. */
size_t count_nodes(const uint8_t *sheet, size_t length);

int is_utf8(const uint8_t *bytes, size_t length);

#endif
