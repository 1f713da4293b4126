"""Holds the least rooms that hosts/rust's comparison found, and the texts, to the peaks and texts of the second definition. Among them
are all calls at which the Rust panics, at the cut that docs/DIFFERENCES.md names: for these only the second definition has a text.

    python3 tools/peaks.py FILE --model ../shared/model

A line of FILE is a call: sheet (a point and hex), start, flag, skip list (`-` for the default, else a point and the run in hex), the
least room that suffices, and the text (a point and hex). Prints the counts, and ends with 1 where something differs.
"""
import os
import sys

import command_line


def unhex(word):
    return bytes.fromhex(word[1:])


def main():
    ap = command_line.parser(__doc__)
    ap.add_argument("file")
    ap.add_argument("--model", required=True, help=command_line.MODEL)
    args = ap.parse_args()
    sys.path.insert(0, os.path.abspath(args.model))
    from model_sheet import decode
    from model_writer import write_md
    count = bad = 0
    with open(args.file, encoding="ascii") as lines:
        for line in lines:
            sheet, start, include, run, room, written = line.split()
            tree = decode(unhex(sheet), int(start), None if run == "-" else unhex(run))
            text, peak = write_md(tree, include == "1")
            count += 1
            if peak != int(room) or text != unhex(written):
                bad += 1
                print("DIFFERENT: %s; the peak is %d and the text %r" % (line.strip(), peak, text))
    print("%d calls, %d differences" % (count, bad))
    sys.exit(1 if bad or not count else 0)


if __name__ == "__main__":
    main()
