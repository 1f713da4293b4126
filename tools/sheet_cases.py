"""Makes what the program `sheet` is run on, and what it must write, and the sample sheet.

    python3 tools/sheet_cases.py --oracle ../shared/oracle --model ../shared/model

Writes stdin and stdout of crates/sheet and sheet_long, and samples/sample.sheet with its text, samples/sample.md; tools/quay_cases.py has
further inputs.
The texts are the Rust's, and those of the model, a second definition in Python, are the same; that a text needs more room than the program
has is the model's answer.
"""
import os

import command_line
import sample
from sheets import el, field

HERE = os.path.dirname(os.path.abspath(__file__))
SPACE = 65536           # the longest input, the node memory, the text memory
WORDS = b"set the range ring "


def paragraph(text):
    return field(1, b"p") + field(4, text) + field(6, b"")


def filled(size):
    """a paragraph, as a sheet of so many bytes"""
    n = size - len(paragraph(b""))
    return paragraph((WORDS * (n // len(WORDS) + 1))[:n - 1] + b".")


def written(reference, sheet):
    """what the program writes"""
    if len(sheet) > SPACE:
        return b"no 1\n"
    answer = reference.answer(sheet, 0, False, None)
    if answer[0] == "no":
        return b"no %d\n" % answer[1]
    assert 64 * len(reference.sheet.decode(sheet).nodes) <= SPACE
    return answer[1] if answer[2] <= SPACE else b"no 10\n"


def put(data, *path):
    name = os.path.join(HERE, "..", *path)
    os.makedirs(os.path.dirname(name), exist_ok=True)
    with open(name, "wb") as f:
        f.write(data)


def main():
    _, reference = command_line.with_reference(command_line.parser(__doc__))
    cases = {
        "sheet": (el("ol", el("li", "A"), el("li", "B"), start="9"), b"9. A\n10. B"),
        "sheet_long": (filled(SPACE + 1), b"no 1\n"),
    }
    for name, (sheet, expected) in cases.items():
        out = written(reference, sheet)
        assert out == expected, (name, out)
        put(sheet, "crates", name, "stdin")
        put(out, "crates", name, "stdout")
        print("%s: %d bytes, writes %d: %r" % (name, len(sheet), len(out), out[:40]))
    sheet = sample.sheet()
    text = written(reference, sheet)
    put(sheet, "samples", "sample.sheet")
    put(text, "samples", "sample.md")
    print("samples: %d bytes, %d of text" % (len(sheet), len(text)))


if __name__ == "__main__":
    main()
