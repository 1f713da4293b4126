/* The call of the library `md` (`tools/archive.sh`). Its contract stands in crates/md_c/src/lib.rt. */
#ifndef BUZHNAEL_H
#define BUZHNAEL_H

#include <stddef.h>
#include <stdint.h>

#ifdef __cplusplus
extern "C" {
#endif

/* No sheet has more bytes, and none more nodes, the fragment included. */
#define BUZHNAEL_SHEET_MOST 1048576
#define BUZHNAEL_NODES_MOST 65535

/* Node memory holds this many bytes for each node. */
#define BUZHNAEL_NODE 64

/* What was asked where the call says no: the call returns minus one of these. */
enum buzhnael_question {
    BUZHNAEL_SHEET_LENGTH = 1, /* Is the sheet at most 1,048,576 bytes? */
    BUZHNAEL_FIELDS = 2,       /* Does every field end inside it, with a tag from 1 to 6? */
    BUZHNAEL_RULES = 3,        /* Do the fields keep the rules, with every element closed and no stray close? */
    BUZHNAEL_UTF8 = 4,         /* Are all names, values, texts and comments UTF-8? */
    BUZHNAEL_LIMITS = 5,       /* Are there at most 65,535 nodes, and never over 100 elements open? */
    BUZHNAEL_BLOCKQUOTE = 6,   /* Is no element named `blockquote`? */
    BUZHNAEL_START = 7,        /* Is the start number that of a node? */
    BUZHNAEL_SKIP_LIST = 8,    /* Is the skip list the default, or at most 16 whole fields of 1 to 64 UTF-8 bytes each? */
    BUZHNAEL_NODE_MEMORY = 9,  /* Has the node memory at least 64 bytes for each node? */
    BUZHNAEL_TEXT_MEMORY = 10  /* Does the text memory suffice? */
};

/* Writes a sheet as Markdown, from node `start`, with it (include_node) or without it.
   own: 0 for the default skip list, anything else: `run` holds it (fields with tag 7).
   Returns the length of the text (0 or more), or -N where question N (1 to 10) said no.
   1 to 9 leave both memories untouched; 10 leaves both all zero; after acceptance `text` holds
   the text and zeros behind, and `nodes` is all zero.
   No pointer is null, also where a length is 0; `nodes` and `text` overlap nothing else that is passed. */
int64_t buzhnael_serialize_md(
    const uint8_t *sheet, size_t sheet_len,
    uint8_t own, const uint8_t *run, size_t run_len,
    size_t start, uint8_t include_node,
    uint8_t *nodes, size_t nodes_len,
    uint8_t *text, size_t text_len);

#ifdef __cplusplus
}
#endif

#endif
