"""Makes what the program crates/quay_cases must write: the cases of document 01 that are run and not proved, and inputs of the program `sheet`.

    python3 tools/quay_cases.py --oracle ../shared/oracle --model ../shared/model

The program builds the same sheets. Texts and the number 5 are the Rust's, numbers 9 and 10 the model's; every answer is compared with the one
that stands here after document 01.
"""
import os

import command_line
from sheets import el, field

OUT = os.path.join(os.path.dirname(os.path.abspath(__file__)), "..", "crates", "quay_cases", "stdout")
LARGE = 4194304
SPACE = 65536           # the longest input of `sheet`, its node memory, its text memory
END = field(6, b"")

X = el("p", "x")
TABLE = el("table", el("tr", el("td", "010"), el("td", "a|b")))
ASTERISKS = b"*" * 125
LONGEST = field(5, ASTERISKS) * 511 + field(4, ASTERISKS)
assert len(LONGEST) == SPACE


def deep(n):
    return field(1, b"b") * n + field(4, b"x") + END * n


CASES = [  # title, sheet, start, with the node, node memory, text memory, answer
    ("link to a(b", el("a", "x", href="a(b"), 0, False, LARGE, 4096, "[x](<a(b>)"),
    ("link to a(b)c", el("a", "x", href="a(b)c"), 0, False, LARGE, 4096, "[x](a(b)c)"),
    ("link to a&b", el("a", "x", href="a&b"), 0, False, LARGE, 4096, "[x](a&amp;b)"),
    ("from node 0 without it", X, 0, False, LARGE, 4096, "x"),
    ("from node 0 with it", X, 0, True, LARGE, 4096, ""),
    ("from node 1 with it", X, 1, True, LARGE, 4096, "//x//"),
    ("3 nodes, 192 bytes", X, 0, False, 192, 100, "x"),
    ("3 nodes, 191 bytes", X, 0, False, 191, 100, 9),
    ("3 nodes, 63 bytes", X, 0, False, 63, 100, 9),
    ("65,535 nodes", field(4, b"") * 65534, 0, False, LARGE, 4096, ""),
    ("65,536 nodes", field(4, b"") * 65535, 0, False, LARGE, 4096, 5),
    ("100 open", deep(100), 0, False, LARGE, 4096, None),
    ("101 open", deep(101), 0, False, LARGE, 4096, 5),
    ("table, 47 bytes", TABLE, 0, False, 1000, 47, "|   |   |/| - | - |/| 010 | a\\|b |"),
    ("table, 46 bytes", TABLE, 0, False, 1000, 46, 10),
    ("sheet, 40,000 asterisks", field(4, ASTERISKS) * 320, 0, False, SPACE, SPACE, 10),
    ("sheet, 65,536 bytes", LONGEST, 0, False, SPACE, SPACE, "\\*" * 125),
]
LONGER = "sheet, more bytes: 1\n"  # "a longer input prints `no 1`", whatever the sheet


def answer(reference, sheet, start, include, memory, room):
    """the number, or the text with `/` for LF"""
    a = reference.answer(sheet, start, include, None)
    if a[0] == "no":
        return a[1]
    if memory < 64 * len(reference.sheet.decode(sheet).nodes):
        return 9
    return 10 if room < a[2] else a[1].decode().replace("\n", "/")


def main():
    _, reference = command_line.with_reference(command_line.parser(__doc__))
    lines = []
    for title, sheet, start, include, memory, room, expected in CASES:
        a = answer(reference, sheet, start, include, memory, room)
        assert expected in (None, a), (title, a, expected)
        lines.append("%s: %s\n" % (title, a if isinstance(a, int) else "0 %d %s" % (len(a.encode()), a)))
    lines.append(LONGER)
    with open(OUT, "w") as f:
        f.write("".join(lines))
    print("".join(lines), end="")


if __name__ == "__main__":
    main()
