/* Writes a sheet from a file, or from standard input, as Markdown:
       sheet [FILE]
   A refusal prints `no ` and the number of the question to standard error and ends with 1. */
#include "buzhnael.h"

#include <stdio.h>

/* one byte more than a sheet may have, so that longer input is refused */
static uint8_t sheet[BUZHNAEL_SHEET_MOST + 1];
static uint8_t nodes[BUZHNAEL_NODES_MOST * BUZHNAEL_NODE];
static uint8_t text[4 * BUZHNAEL_SHEET_MOST];

int main(int argc, char **argv)
{
    static const uint8_t no_run[1];
    FILE *in = stdin;
    size_t length;
    int64_t answer;

    if (argc > 2) {
        fprintf(stderr, "usage: %s [FILE]\n", argv[0]);
        return 2;
    }
    if (argc == 2 && !(in = fopen(argv[1], "rb"))) {
        perror(argv[1]);
        return 2;
    }
    length = fread(sheet, 1, sizeof sheet, in);
    if (ferror(in)) {
        perror("read");
        return 2;
    }
    answer = buzhnael_serialize_md(sheet, length, 0, no_run, 0, 0, 0, nodes, sizeof nodes, text, sizeof text);
    if (answer < 0) {
        fprintf(stderr, "no %d\n", (int)-answer);
        return 1;
    }
    if (fwrite(text, 1, (size_t)answer, stdout) != (size_t)answer || fflush(stdout) != 0) {
        perror("write");
        return 2;
    }
    return 0;
}
