"""Makes the stored list of calls that the program crates/md_cases replays, and what it must write.

    python3 tools/md_cases.py --oracle ../shared/oracle --model ../shared/model

Writes crates/md_cases/stdin and stdout (--out: another folder; --calls, --seed: another list) and prints what the list covers. Texts and the
numbers 1 to 8 are the Rust's; number 9, and the room that a text needs, are those of the model, a second definition in Python, which must
have the same text and number: else the call is printed and nothing is written. Where the Rust panics (the cut that docs/DIFFERENCES.md
names) the text is the model's.

The list, numbers little-endian: how many calls (4 bytes), a head of 38 bytes for each, then the bytes that the heads point to. A head: flags (1: an own
skip list, 2: with the start node, 4: the sheet is so many zeros), the number of the question that says no or 0 (1 byte each), start node, length of
the node memory, room of the text (its peak, where there is a text), then for sheet, skip list and text where they stand and how long they are (4 each).
The program makes a call that gives a text three times: with the peak as its room, with more, and with one byte less, where the number is 10.
"""
import collections
import os
import random
import re
import struct
import sys

import command_line
import plain
import sheets
from compare import Coverage
from sheets import el, field, nodes_in
from trees import encode

HERE = os.path.dirname(os.path.abspath(__file__))
NAMES = os.path.join(HERE, "..", "crates", "spec", "specs", "Names.antt")
ATTRIBUTES = "href title src srcset data-src alt start value class data-lang data-language".split()
LONGEST = 1048576
OWN, WITH_NODE, ZEROS = 1, 2, 4
SPACE = 1048577         # that the program has for the list

Call = collections.namedtuple("Call", "sheet start include skips memory number text room rust kind")


class Maker:
    def __init__(self, reference, seed):
        self.reference = reference
        self.g = sheets.Gen(seed)
        self.r = random.Random(seed)
        self.calls = []

    def add(self, kind, sheet, start=0, include=False, skips=None, memory=None):
        needed = 64 * nodes_in(sheet)
        if memory is None:
            memory = needed + self.r.choice([0, 0, 1, 64, 1000])
        panics = self.reference.panics
        answer = self.reference.answer(sheet, start, include, skips)
        rust = self.reference.panics == panics
        if answer[0] == "no":
            number, text, room = answer[1], b"", self.r.choice([0, 1, 60, 200])
            memory = min(memory, 4096)
        elif memory < needed:
            number, text, room, rust = 9, b"", answer[2] + 5, False
        else:
            number, text, room = 0, answer[1], answer[2]
        self.calls.append(Call(sheet, start, include, skips, memory, number, text, room, rust, kind))

    def everywhere(self, kind, sheet, skips):
        """from every node, with it and without"""
        for start in range(nodes_in(sheet)):
            for include in (False, True):
                self.add(kind, sheet, start, include, skips)

    def limits(self):
        b, end = field(1, b"b"), field(6, b"")
        small = field(1, b"p") + field(4, b"x") + end
        for n in (LONGEST, LONGEST + 1):
            self.add("limit", bytes(n))
        for n in (99, 100, 101, 102):
            self.add("limit", b * n + field(4, b"x") + end * n)
        for start in (0, 2, 3, 65535, 65536, 4294967295):
            self.add("limit", small, start)
        for skips in (b"", field(7, b"p"), field(7, b"p") * 16, field(7, b"p") * 17, field(7, b"x" * 64), field(7, b"x" * 65), field(7, b""),
                      field(7, b"p")[:-1], field(6, b""), field(7, b"\xff"), field(7, "é".encode())):
            self.add("limit", small, 0, False, skips)
        for memory in (0, 1, 63, 127, 191, 192, 193):
            self.add("limit", small, memory=memory)
            self.add("limit", b"", memory=memory)
        for name in (b"blockquote", b"blockquot", b"Blockquote"):
            inside = field(1, name) + field(4, b"x") + end
            self.add("limit", inside)
            self.add("limit", field(1, b"script") + inside + end)

    def rare(self):
        """links with blank texts; pipes in a cell that no escape of texts has met"""
        for blank in (" ", "\n", "\t ", "\u00a0", ""):
            self.add("rare", el("p", "a", el("a", blank, href="u"), "b"))
        for inside in (el("code", "a|b"), el("code", "a\\|b"), el("a", "x", href="a|b"), el("img", src="|"), el("pre", "a|b"), el("a", "|", href="")):
            for name in ("th", "td"):
                self.add("rare", el("table", el("tr", el(name, inside), el(name, "b"))))

    def fill(self, n):
        self.limits()
        self.rare()
        while len(self.calls) < n:
            x = self.r.random()
            if x < .15:
                self.add("damaged", *damaged_call(self.g.damaged()))
            elif x < .35:
                self.add("plain", encode(plain.random_sheet(self.r)))
            elif x < .38:
                sheet = self.g.sheet()
                self.add("memory", sheet, memory=64 * nodes_in(sheet) - self.r.choice([1, 1, 7, 64]))
            elif x < .41:
                self.everywhere("every node", self.g.sheet(), self.g.skips())
            else:
                sheet = self.g.sheet()
                self.add("general", sheet, self.r.choice([0, 0, self.r.randrange(nodes_in(sheet))]), self.r.random() < .3, self.g.skips())
        return self.calls


def damaged_call(made):
    sheet, start, skips = made
    return sheet, start, False, skips


def pack(calls):
    base = 4 + 38 * len(calls)
    pool = bytearray()

    def stored(b):
        at = pool.find(b)
        if at < 0:
            at = len(pool)
            pool.extend(b)
        return base + at, len(b)

    heads = [b""] * len(calls)
    for k in sorted(range(len(calls)), key=lambda k: -len(calls[k].sheet)):
        c = calls[k]
        zeros = len(c.sheet) > 65536
        flags = OWN * (c.skips is not None) | WITH_NODE * c.include | ZEROS * zeros
        places = ((0, len(c.sheet)) if zeros else stored(c.sheet)) + stored(c.skips or b"") + stored(c.text)
        heads[k] = struct.pack("<BB9I", flags, c.number, c.start, c.memory, c.room, *places)
    return struct.pack("<I", len(calls)) + b"".join(heads) + bytes(pool)


def names_of_code():
    with open(NAMES, encoding="utf-8") as f:
        listed = f.read().split("names =", 1)[1].split("[]", 1)[0]
    return re.findall(r'ascii "([^"]+)"', listed)


def cover(calls, reference):
    """prints what the calls cover, and fails where something that the list must have is not there"""
    numbers = collections.Counter(c.number for c in calls)
    made = sum(1 if c.number else 2 + (c.room > 0) for c in calls)
    texts = [c for c in calls if not c.number]
    numbers[10] = sum(c.room > 0 for c in texts)
    by_rust = sum(c.rust for c in calls)
    print("%d stored answers: %d are the Rust's; %d calls" % (len(calls), by_rust, made))
    print("by kind: %s" % dict(collections.Counter(c.kind for c in calls)))
    print("by number: %s" % dict(sorted(numbers.items())))
    print("texts of the model, where the Rust panics: %d" % sum(not c.rust for c in texts))
    skips = collections.Counter("default" if c.skips is None else "own" if c.skips else "empty" for c in texts)
    print("texts by skip list: %s; with the start node: %d; without: %d" % (dict(skips), sum(c.include for c in texts), sum(not c.include for c in texts)))
    starts, elements, attributes = collections.Counter(), collections.Counter(), collections.Counter()
    for c in texts:
        tree = reference.sheet.decode(c.sheet, c.start, c.skips)
        start = tree.nodes[c.start]
        starts[{0: "fragment", 1: "element", 4: "text", 5: "comment"}[start.kind]] += 1
        todo = [start]
        while todo:
            node = todo.pop()
            elements[node.name.decode()] += node.kind == 1
            attributes.update(k.decode() for k, _ in node.attrs)
            todo += node.kids
    print("start nodes: %s" % dict(starts))
    wanted = names_of_code() + [b.decode() for b in reference.sheet.DEFAULT_SKIPS]
    print("elements: %s" % ", ".join("%s %d" % (n, elements[n]) for n in wanted))
    print("attributes: %s" % ", ".join("%s %d" % (n, attributes[n]) for n in ATTRIBUTES))
    assert by_rust >= 2000 and all(numbers[n] for n in range(11)), numbers
    assert len(skips) == 3 and len(starts) == 4
    assert all(elements[n] for n in wanted) and all(attributes[n] for n in ATTRIBUTES)
    assert any(c.include for c in texts) and any(c.kind == "plain" for c in texts)
    return made


def main():
    ap = command_line.parser(__doc__)
    ap.add_argument("--calls", type=int, default=4000, help="how many answers to store, at least")
    ap.add_argument("--seed", type=int, default=1)
    ap.add_argument("--out", default=os.path.join(HERE, "..", "crates", "md_cases"), help="the folder to write to")
    args, reference = command_line.with_reference(ap)
    coverage = Coverage(args.model)
    sys.settrace(coverage.trace)
    calls = Maker(reference, args.seed).fill(args.calls)
    sys.settrace(None)
    made = cover(calls, reference)
    print("lines of the model not reached:\n  %s" % "\n  ".join(coverage.missed(reference.writer)))
    packed = pack(calls)
    assert len(packed) <= SPACE, len(packed)
    with open(os.path.join(args.out, "stdin"), "wb") as f:
        f.write(packed)
    with open(os.path.join(args.out, "stdout"), "w") as f:
        f.write("%d calls, 0 differ\n" % made)
    print("%d bytes" % len(packed))


if __name__ == "__main__":
    main()
