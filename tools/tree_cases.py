"""Makes the stored list of sheets that the program crates/tree_cases reads, and what it must write.

    python3 tools/tree_cases.py --model ../shared/model [--oracle ../shared/oracle]

Writes crates/tree_cases/stdin and stdout. The numbers of the questions and the trees are those of the model, a second definition in Python; with
--oracle every number is compared with the Rust's. Where the fields stand is found here.

A call in stdin, numbers little-endian: own skip list or not (1 byte), lengths of the skip list and of an attribute name (2 each), start node and
length of the node memory (4 each), number of pieces (2), skip list, name; then the pieces of the sheet, each by how often it stands there (4),
its length (2) and its bytes.

In stdout a line for each call: the number of the question that says no, or 0 and how many nodes there are, and then a line for each node but the
fragment: distance to its end, number of its parent, distances to its first child and its next sibling (0 for none); tag, name by number; start and length of its text, of
the attribute's value and of the language (0 0 for none; starts counted from its field); whether the skip list leaves it out; distance of its field
from that of the node before it. " * n" says that the line above comes n times more.
"""
import os
import struct
import sys

import command_line
import sheets
from sheets import el, field, nodes_in, spans

HERE = os.path.join(os.path.dirname(os.path.abspath(__file__)), "..", "crates", "tree_cases")
NAMES = ("article section div p h1 h2 h3 h4 h5 h6 ul ol dl table hr li tr th td br a img pre code strong b em i thead tbody").split()
LANGUAGES = (b"data-lang", b"data-language")
CLOSE = field(6, b"")


class Call:
    def __init__(self, pieces, skips=None, start=0, memory=None, name=b"title"):
        self.pieces = [(1, pieces)] if isinstance(pieces, bytes) else pieces
        self.sheet = b"".join(n * p for n, p in self.pieces)
        self.skips, self.start, self.name = skips, start, name
        self.memory = 64 * nodes_in(self.sheet) if memory is None else memory

    def packed(self):
        run = self.skips or b""
        out = struct.pack("<BHHIIH", self.skips is not None, len(run), len(self.name), self.start, self.memory, len(self.pieces)) + run + self.name
        return out + b"".join(struct.pack("<IH", n, len(p)) + p for n, p in self.pieces)


def value(fields, k, sheet, wanted):
    """start and end of the first value behind field k whose name is wanted, or None"""
    while k + 2 < len(fields) and fields[k + 1][1] == 2:
        if sheet[fields[k + 1][2]:fields[k + 1][3]] in wanted:
            return fields[k + 2][2:]
        k += 2
    return None


def answer(call, tree):
    """what the program must write"""
    if isinstance(tree, int):
        return "%d\n" % tree
    size = len(tree.nodes)
    if call.memory < 64 * size:
        return "9\n"
    fields = spans(call.sheet)
    begins = [k for k, f in enumerate(fields) if f[1] in (1, 4, 5)]
    ends, following = [0] * size, [0] * size
    for n in reversed(tree.nodes):
        ends[n.id] = ends[n.kids[-1].id] if n.kids else n.id + 1
        for one, other in zip(n.kids, n.kids[1:]):
            following[one.id] = other.id
    out, last, again, before = ["0 %d" % size], None, 0, 0
    for n in tree.nodes[1:]:
        k = begins[n.id - 1]
        place, tag, start, end = fields[k]
        assert tag == n.kind
        line = [ends[n.id] - n.id, n.parent.id, n.kids[0].id - n.id if n.kids else 0, max(0, following[n.id] - n.id), tag,
                NAMES.index(n.name.decode()) + 1 if tag == 1 and n.name.decode() in NAMES else 0, 3, end - start if tag == 4 else 0]
        for wanted in ((call.name,), LANGUAGES):
            v = value(fields, k, call.sheet, wanted) if tag == 1 else None
            line += [v[0] - place, v[1] - v[0]] if v else [0, 0]
        line += [int(tag == 1 and n.name in tree.skips), place - before]
        before = place
        if line == last:
            again += 1
            continue
        if again:
            out.append(" * %d" % again)
        out.append("".join(" %d" % x for x in line))
        last, again = line, 0
    if again:
        out.append(" * %d" % again)
    return "\n".join(out) + "\n"


def limits():
    """the limits of document 01, on both sides"""
    text = field(4, b"")
    yield Call([(65534, text)])
    yield Call([(65535, text)], memory=4194304)
    yield Call([(65534, text)], memory=65535 * 64 - 1)
    yield Call([(32767, el(b"p")), (32767, field(5, b"c"))])
    yield Call([(32767, el(b"p")), (32768, field(5, b"c"))], memory=4194304)
    for n in (99, 100, 101):
        yield Call([(n, field(1, b"b")), (1, field(4, b"x")), (n, CLOSE)])
        yield Call([(3, el(b"p")), (n, field(1, b"b")), (n, CLOSE), (n, field(1, b"i")), (n, CLOSE)])
    body = [(1, b"\x05\xff\xfd"), (65533, b"c")] * 15
    yield Call(body + [(1, b"\x05\xff\xfd"), (65533, b"c")])
    yield Call(body + [(1, b"\x05\xff\xfe"), (65534, b"c")])
    yield Call(body + [(1, b"\x05\xff\xfa"), (65530, b"c"), (1, CLOSE)])
    yield Call([(1048576, b"\0")])
    yield Call([(1048577, b"\0")])
    yield Call([(1, b"\4\xff\xff"), (65535, b"x")])
    yield Call([(1, b"\4\xff\xff"), (65534, b"x")])


def damage():
    """every kind of damage, and orders of two kinds"""
    good = el(b"p", field(4, b"x"), attrs=[(b"title", b"1"), (b"title", b"2")])
    yield Call(b"")
    for k in range(len(good) + 1):
        yield Call(good[:k])
    for tag in (0, 7, 255):
        yield Call(bytes([tag]) + good[1:])
    name, val = field(2, b"n"), field(3, b"v")
    for s in (name, val, name + val, field(1, b"p") + name, field(1, b"p") + name + CLOSE, field(1, b"p") + val + CLOSE, field(1, b"p") + name + name + val + CLOSE,
              field(1, b"p") + name + val + val + CLOSE, field(4, b"x") + name + val, field(1, b"p") + field(4, b"x") + name + val + CLOSE, field(1, b""),
              field(1, b"") + CLOSE, field(1, b"p") + field(2, b"") + val + CLOSE, field(1, b"p") + name + field(3, b"") + CLOSE, CLOSE, CLOSE + good, good + CLOSE,
              field(1, b"p"), field(1, b"p") * 2 + CLOSE, field(1, b"p") + b"\6\0\1x", good + field(6, b"x")):
        yield Call(s)
    for bad in (b"\x80", b"\xc0\x80", b"\xc1\xbf", b"\xc2", b"\xe0\x9f\xbf", b"\xed\xa0\x80", b"\xed\xbf\xbf", b"\xe2\x82", b"\xf0\x8f\xbf\xbf", b"\xf4\x90\x80\x80", b"\xf5\x80\x80\x80",
                b"\xff", b"a\xc3", b"\xc3(", b"\xe2\x28\xa1", b"\xf0\x9f\x92\x41"):
        for s in (field(4, bad), field(5, bad), el(bad), el(b"p", attrs=[(bad, b"v")]), el(b"p", attrs=[(b"n", bad)])):
            yield Call(s)
    for fine in (b"\x7f", b"\xc2\x80", b"\xdf\xbf", b"\xe0\xa0\x80", b"\xed\x9f\xbf", b"\xee\x80\x80", b"\xef\xbf\xbf", b"\xf0\x90\x80\x80", b"\xf4\x8f\xbf\xbf"):
        yield Call(field(4, fine))
    for s in (el(b"blockquote"), el(b"p", el(b"blockquote")), el(b"Blockquote"), el(b"blockquotes"), field(4, b"blockquote"), el(b"p", attrs=[(b"blockquote", b"blockquote")])):
        yield Call(s)
    for start in (0, 1, 2, 3, 65535, 4294967295):
        yield Call(good, start=start)
    names = [b"p", b"x" * 64, "\u00e9".encode()]
    for run in (b"", field(7, b"p"), b"".join(field(7, n) for n in names), field(7, b"p") * 16, field(7, b"p") * 17, field(7, b""), field(7, b"x" * 65), field(7, b"\xff"),
                field(6, b"p"), field(8, b"p"), b"\7\0", b"\7\0\2a", field(7, b"a") + b"\7"):
        yield Call(good, skips=run)
    for memory in (0, 24, 64 * 3 - 1, 64 * 3, 64 * 3 + 1):
        yield Call(good, memory=memory)
    # a question before another
    yield Call(field(4, b"\xff") + good[:-1])
    yield Call(field(4, b"\xff") + CLOSE)
    yield Call([(101, field(1, b"blockquote")), (101, CLOSE)], start=9999)
    yield Call(el(b"blockquote"), start=2, skips=b"\7")
    yield Call(good, start=3, skips=b"\7", memory=0)
    yield Call(good, skips=b"\7", memory=0)


def shapes():
    """trees and attributes that random sheets rarely have"""
    names = [n.encode() for n in NAMES]
    yield Call(b"".join(el(n) for n in names))
    yield Call(b"".join(el(n + b"x") + el(n.upper()) + el(n[:-1] or b"q") for n in names))
    yield Call(b"".join(el(n) for n in (b"script", b"style", b"meta", b"head", b"heads", b"hea", b"p")))
    yield Call(el(b"p", el(b"b", el(b"i"), field(4, b"a")), field(5, b"c"), el(b"em")) + field(4, b"z"), skips=field(7, b"b") + field(7, b"em"))
    for attrs in ([(b"k", b"1"), (b"k", b"2")], [(b"kk", b"1"), (b"k", b""), (b"k", b"3")], [(b"K", b"1"), (b"k", b"22")], [(b"data-language", b"r"), (b"data-lang", b"c"), (b"k", b"1")],
                  [(b"data-lang", b""), (b"data-language", b"r")], [(b"data-langs", b"x"), (b"data-lan", b"y")], [(b"x", b"k"), (b"k", b"\x02\0\1k")]):
        yield Call(el(b"a", field(4, b"k"), el(b"i", attrs=[(b"k", b"in")]), attrs=attrs) + el(b"b"), name=b"k")
    yield Call(el(b"p", attrs=[(b"k", b"1")]), name=b"")


def random_calls(count, decode):
    """whole sheets and damaged ones, as many"""
    g = sheets.Gen(65535)
    while count:
        whole = count % 2 == 0
        s, start, skips = (g.sheet(), 0, g.skips()) if whole else g.damaged()
        if whole and isinstance(decode(s, start, skips), int):
            continue
        wanted = [s[f[2]:f[3]] for f in spans(s) if f[1] == 2]
        yield Call(s, skips, start, name=g.r.choice(wanted) if wanted else b"class")
        count -= 1


def main():
    parser = command_line.parser(__doc__)
    parser.add_argument("--model", required=True, help=command_line.MODEL)
    parser.add_argument("--oracle", help=command_line.ORACLE)
    parser.add_argument("--random", type=int, default=400, help="how many random calls")
    args = parser.parse_args()
    sys.path.insert(0, args.model)
    import model_sheet
    calls = [*limits(), *damage(), *shapes(), *random_calls(args.random, model_sheet.decode)]
    trees = [model_sheet.decode(c.sheet, c.start, c.skips) for c in calls]
    if args.oracle:
        sys.path.insert(0, args.oracle)
        import oracle
        with oracle.Oracle() as rust:
            for c, tree in zip(calls, trees):
                refused = rust.write(c.sheet, c.start, False, c.skips) == "refused"
                assert (rust.last_refusal if refused else 0) == (tree if isinstance(tree, int) else 0), c.sheet
    with open(os.path.join(HERE, "stdin"), "wb") as out:
        out.write(b"".join(c.packed() for c in calls))
    with open(os.path.join(HERE, "stdout"), "w", encoding="ascii") as out:
        out.write("".join(answer(c, t) for c, t in zip(calls, trees)))
    print("%d calls" % len(calls))


if __name__ == "__main__":
    main()
