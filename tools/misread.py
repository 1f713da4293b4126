"""Random small trees, written by the library and read by cmark-gfm: what a reader of the text sees is compared with what the tree
shows (shown.py), and every difference is explained by a class of `CLASSES`, or is a finding.

    python3 tools/misread.py --archive target/staticlib/libmd.a --cmark ../shared/tools/cmark_list.py --trees 200000 --seed 1
    python3 tools/misread.py --oracle ../shared/oracle --cmark ../shared/tools/cmark_list.py --small 3

The first calls the linked library (a C compiler), the second the Rust. `--small N` takes all trees of up to N nodes over a small
alphabet first. Every tree is written from the root without it under the default skip list.

A class is a change to the tree that takes away one cause and nothing else. A difference is explained by the smallest set of classes
whose changes, made one after another, leave a tree without a difference; where there are several such sets, by the first in the order
of the list. The classes that are marked "the same sight" must not change what the tree shows; that is checked at each use. For each
class the smallest tree is printed that it explains alone. A difference that no seven classes explain is printed with the smallest tree
found by shrinking it. The program ends with 1 if there is one, or if a class explains no tree alone.

The trees keep to what an HTML parser makes of well-formed documents, but for blocks in `b`, `i` and `a`, and a link in a link: items
stand in lists, rows in tables, cells in rows; `p` and headings hold no blocks; `code` and `pre` hold texts.
"""
import collections
import ctypes
import os
import random
import subprocess
import sys
import tempfile

import command_line
import shown
from misread_causes import CLASSES, EXAMPLES, INLINES, LISTS
from shown import BLOCKS, HEADINGS
from trees import el, encode


# ---- the writers

class Rust:
    def __init__(self, path):
        sys.path.insert(0, path)
        import oracle
        self.client = oracle.Oracle()

    def write(self, sheet):
        """None where the Rust panics"""
        answer = self.client.write(encode(sheet))
        return answer if isinstance(answer, bytes) else None

    def close(self):
        self.client.close()


class Library:
    def __init__(self, archive):
        self.place = tempfile.TemporaryDirectory()
        so = os.path.join(self.place.name, "libmd.so")
        subprocess.run(["cc", "-shared", "-o", so, "-Wl,--whole-archive", archive, "-Wl,--no-whole-archive"], check=True)
        self.call = ctypes.CDLL(so).buzhnael_serialize_md
        self.call.restype = ctypes.c_int64
        size, byte, buffer = ctypes.c_size_t, ctypes.c_uint8, ctypes.c_char_p
        self.call.argtypes = [buffer, size, byte, buffer, size, size, byte, buffer, size, buffer, size]
        self.nodes, self.text = (ctypes.create_string_buffer(65536) for _ in range(2))

    def write(self, sheet):
        s = encode(sheet)
        n = self.call(s, len(s), 0, b"", 0, 0, 0, ctypes.cast(self.nodes, ctypes.c_char_p), 65536,
                      ctypes.cast(self.text, ctypes.c_char_p), 65536)
        if n < 0:
            raise RuntimeError("question %d: %r" % (-n, sheet))
        return self.text.raw[:n]

    def close(self):
        self.place.cleanup()


# ---- trees

TEXTS = [b"x", b"x", b"x", b"a ", b" a", b" ", b"", b"# x", b"1", b"1.", b"1. Fit", b"-", b"+", b"*", b"_", b"`", b"|", b"\\", b"&amp;",
         b"<b>", b"[x]", b"!", b".", b"=", b"---", b"~~~", b"a\nb", b"a\n# b", b"\xc2\xa0", b"\xef\xbb\xbf", b"\0", b"\x0b", b"x!", b"(y)",
         b"a\\", b"a|b", b"\\|", b">", b"``", b"#", b"1)", b": x", b"- -", b"http://a", b"\t", b"a  b"]
HREFS = [b"u", b"u", b"u", b"", b"a b", b"a(b", b"&amp;", b"a\\", b"a|b"]
NUMBERS = [b"3", b"0", b"-4", b"999999999", b"1000000000", b"x", b"10"]


class Trees:
    """random trees of at most `left` nodes, more or less"""

    def __init__(self, rnd):
        self.r = rnd

    def sheet(self):
        """of a few texts and inline elements, so that they meet"""
        self.left = self.r.choice([2, 3, 4, 5, 6, 8, 10])
        self.texts = self.r.sample(TEXTS, 4) if self.r.random() < 0.6 else TEXTS
        self.names = self.r.sample(INLINES, 3) if self.r.random() < 0.6 else INLINES
        return self.flow(3, self.r.choice([1, 1, 2, 2, 3]))

    def flow(self, depth, n):
        return [self.inline(depth, True) if self.r.random() < 0.35 else self.block(depth) for _ in range(n) if self.take()]

    def take(self):
        self.left -= 1
        return self.left >= 0

    def inlines(self, depth, n):
        return [self.inline(depth, False) for _ in range(n) if self.take()]

    def some(self):
        return self.r.choice([0, 1, 1, 1, 2, 2, 3])

    def text(self):
        return self.r.choice(self.texts)

    def inline(self, depth, blocks):
        r = self.r
        name = r.choice(self.names) if depth > 0 and r.random() < 0.45 else ""
        if not name:
            return self.text()
        if name == "br":
            return el("br")
        if name == "img":
            return el("img", attrs=self.some_attrs((b"src", HREFS, .8), (b"alt", self.texts, .5), (b"title", self.texts, .2)))
        if name == "code":
            return el("code", *[self.text() for _ in range(self.some()) if self.take()])
        attrs = self.some_attrs((b"href", HREFS, .75), (b"title", self.texts, .2)) if name == "a" else ()
        kids = self.flow(depth - 1, self.some()) if blocks and r.random() < 0.15 else self.inlines(depth - 1, self.some())
        return el(name, *kids, attrs=attrs)

    def some_attrs(self, *choices):
        return [(key, self.r.choice(values)) for key, values, chance in choices if self.r.random() < chance]

    def block(self, depth):
        r = self.r
        name = r.choice(["p", "p", "p", "h1", "h2", "ul", "ol", "pre", "hr", "table", "div"])
        if name == "hr":
            return el("hr")
        if name == "pre":
            kids = [self.text() for _ in range(self.some()) if self.take()]
            return el("pre", el("code", *kids)) if r.random() < 0.3 else el("pre", *kids)
        if name in LISTS and depth > 0:
            attrs = self.some_attrs((b"start", NUMBERS, .4)) if name == "ol" else ()
            items = [self.item(depth - 1, name) for _ in range(r.choice([1, 1, 2, 3])) if self.take()]
            return el(name, *items, attrs=attrs)
        if name == "table" and depth > 0:
            return self.table(depth - 1)
        if name == "div" and depth > 0:
            return el("div", *self.flow(depth - 1, self.some()))
        return el(name if name[0] in "ph" else "p", *self.inlines(depth - 1, self.some()))

    def item(self, depth, kind):
        attrs = self.some_attrs((b"value", NUMBERS, .15)) if kind == "ol" else ()
        kids = self.inlines(depth, self.some()) if self.r.random() < 0.5 else self.flow(depth, self.some())
        return el("li", *kids, attrs=attrs)

    def table(self, depth):
        r = self.r
        width, rows = r.choice([1, 1, 2]), []
        for k in range(r.choice([1, 1, 2, 3])):
            name = "th" if k == 0 and r.random() < 0.6 else "td"
            n = width if r.random() < 0.9 else r.choice([0, 1, 2, 3])
            rows.append(el("tr", *[self.cell(depth, name) for _ in range(n) if self.take()]))
        return el("table", *rows)

    def cell(self, depth, name):
        return el(name, *(self.flow(depth, self.some()) if self.r.random() < 0.2 else self.inlines(depth, self.some())))


LEAVES = [b" ", b"x", b"a ", b" a", b"# x", b"1", b"1.", b"-", b"*", b"!", b"`", b"\xc2\xa0", el("br"), el("hr"), el("img", attrs=[(b"src", b"u")])]
ROUND = [lambda *k, n=name: el(n, *k) for name in ("p", "h1", "div", "pre", "b", "i", "code", "span", "a")] + [
    lambda *k: el("a", *k, attrs=[(b"href", b"u")]), lambda *k: el("ul", el("li", *k)), lambda *k: el("ol", el("li", *k)),
    lambda *k: el("table", el("tr", el("th", *k)))]


def forests(n):
    """all sequences of trees of n nodes in all; an element with the part that it needs counts as one node"""
    if n == 0:
        yield []
    for k in range(1, n + 1):
        for tree in trees(k):
            for rest in forests(n - k):
                yield [tree] + rest


def trees(n):
    if n == 1:
        yield from LEAVES
    for kids in forests(n - 1):
        for make in ROUND:
            yield make(*kids)


def size(node):
    if isinstance(node, bytes):
        return 1 + len(node)
    if isinstance(node, list):
        return sum(size(k) for k in node)
    return 3 + sum(1 + len(v) for _, v in node[1]) + size(node[2])


def valid(kids, parent="div"):
    """the trees that are taken"""
    for node in kids:
        if isinstance(node, bytes):
            if parent in ("ul", "ol", "table", "tr"):
                return False
            continue
        name = node[0]
        if parent in LISTS + ("table", "tr"):
            if name not in {"ul": ("li",), "ol": ("li",), "table": ("tr",), "tr": ("th", "td")}[parent]:
                return False
        elif name in ("li", "tr", "th", "td") or parent in ("code", "pre") and (parent, name) != ("pre", "code"):
            return False
        elif name in BLOCKS and parent in ("p",) + tuple(HEADINGS):
            return False
        if not valid(node[2], parent if parent in ("p",) + tuple(HEADINGS) and name in INLINES and name != "code" else name):
            return False
    return True


# ---- shrinking

def smaller(sheet):
    """trees with one node or byte less, or with one node in place of which its children stand"""
    for k, node in enumerate(sheet):
        head, tail = sheet[:k], sheet[k + 1:]
        yield head + tail
        if isinstance(node, bytes):
            for i in range(len(node)):
                yield head + [node[:i] + node[i + 1:]] + tail
            if len(node) > 1 or node not in (b"x", b" "):
                yield head + [b"x"] + tail
            continue
        name, attrs, kids = node
        yield head + kids + tail
        for i, (key, value) in enumerate(attrs):
            yield head + [(name, attrs[:i] + attrs[i + 1:], kids)] + tail
            for shorter in [value[:j] + value[j + 1:] for j in range(len(value))]:
                yield head + [(name, attrs[:i] + [(key, shorter)] + attrs[i + 1:], kids)] + tail
        for less in smaller(kids):
            yield head + [(name, attrs, less)] + tail
        simple = {"strong": "b", "em": "i", "h2": "h1", "td": "th"}.get(name)
        if simple:
            yield head + [(simple, attrs, kids)] + tail


def utf8(node):
    try:
        (node if isinstance(node, bytes) else b"".join([v for _, v in node[1]])).decode()
    except UnicodeDecodeError:
        return False
    return isinstance(node, bytes) or all(utf8(k) for k in node[2])


def order(sheet):
    """the smaller first; of two of one size, the one with more letters x"""
    return (size(sheet), -encode(sheet).count(b"x"), repr(sheet))


def shrink(sheet, keeps):
    """the smallest tree on the way down that `keeps` still holds of"""
    again = True
    while again:
        again = False
        for less in smaller(sheet):
            if order(less) < order(sheet) and all(map(utf8, less)) and valid(less) and keeps(less):
                sheet, again = less, True
                break
    return sheet


# ---- comparing and explaining

class Seen(Exception):
    """a change that must not alter what the tree shows altered it"""


class Comparison:
    def __init__(self, writer, reader):
        self.writer, self.reader = writer, reader

    def agrees(self, sheet):
        """is the text read as the tree shows; None if there is no text"""
        text = self.writer.write(sheet)
        return None if text is None else self.reader.of_text(text) == shown.of_tree(sheet)

    def unexplained(self, sheet):
        return self.agrees(sheet) is False and self.explain(sheet) is None

    def explained(self, sheet, k):
        """by one class alone"""
        return self.agrees(sheet) is False and self.explain(sheet) == (k,)

    def explain(self, sheet, most=7):
        """the smallest set of classes (their places in CLASSES) that explains a tree that differs, or None"""
        layer, known = [((), sheet)], {repr(sheet)}
        for _ in range(most):
            following = []
            for some, s in layer:
                for k, changed in self.changes(some, s):
                    if repr(changed) in known:
                        continue
                    known.add(repr(changed))
                    if self.agrees(changed):
                        return tuple(sorted(some + (k,)))
                    following.append((some + (k,), changed))
            layer = following
        return None

    def changes(self, some, sheet):
        text = self.writer.write(sheet)
        if text is None:
            return
        for k, c in enumerate(CLASSES):
            changed = sheet if k in some else c.change(sheet, text)
            if changed != sheet:
                if c.same and shown.of_tree(changed) != shown.of_tree(sheet):
                    raise Seen("%s: this changes what is shown: %r, %r" % (c.name, sheet, changed))
                yield k, changed


def sheets(args):
    yield from EXAMPLES
    for n in range(args.small + 1):
        yield from filter(valid, forests(n))
    rnd = Trees(random.Random(args.seed))
    for _ in range(args.trees):
        yield rnd.sheet()


def run(args, comparison):
    total, differing = 0, 0
    counts, smallest, findings = collections.Counter(), {}, {}
    for sheet in sheets(args):
        total += 1
        if comparison.agrees(sheet) is not False:
            continue
        differing += 1
        some = comparison.explain(sheet)
        if some is None:
            found = shrink(sheet, comparison.unexplained)
            findings.setdefault(repr(found), [found, 0])[1] += 1
            continue
        counts.update(some)
        if len(some) == 1 and (some[0] not in smallest or order(sheet) < order(smallest[some[0]])):
            smallest[some[0]] = sheet
    print("seed %d: %d trees of up to %d nodes, %d random ones and %d examples, %d read otherwise than they show"
          % (args.seed, total - args.trees - len(EXAMPLES), args.small, args.trees, len(EXAMPLES), differing))
    return counts, smallest, findings


def describe(comparison, sheet):
    text = comparison.writer.write(sheet)
    return "      %r\n      text  %r\n      tree  %s\n      read  %s" % (
        sheet, text, shown.clear(shown.of_tree(sheet)), shown.clear(comparison.reader.of_text(text)))


def report(comparison, counts, smallest, findings):
    for k, c in enumerate(CLASSES):
        print("  %6d  %s" % (counts[k], c.name))
        if k not in smallest:
            print("      IT EXPLAINS NO TREE ALONE")
        else:
            print(describe(comparison, shrink(smallest[k], lambda s: comparison.explained(s, k))))
    print("unexplained: %d" % sum(n for _, n in findings.values()))
    for found, n in sorted(findings.values(), key=lambda f: order(f[0])):
        print("  %6d\n%s" % (n, describe(comparison, found)))


def main():
    p = command_line.parser(__doc__)
    p.add_argument("--archive", help="the linked library")
    p.add_argument("--oracle", help=command_line.ORACLE)
    p.add_argument("--cmark", required=True, help=command_line.CMARK)
    p.add_argument("--trees", type=int, default=20000, help="how many random trees")
    p.add_argument("--seed", type=int, default=1)
    p.add_argument("--small", type=int, default=0, help="all trees of up to so many nodes")
    args = p.parse_args()
    if bool(args.archive) == bool(args.oracle):
        p.error("one of --archive and --oracle")
    writer = Library(args.archive) if args.archive else Rust(args.oracle)
    comparison = Comparison(writer, shown.Reader(args.cmark))
    try:
        found = run(args, comparison)
        report(comparison, *found)
    finally:
        writer.close()
    counts, smallest, findings = found
    return 1 if findings or len(smallest) < len(CLASSES) else 0


if __name__ == "__main__":
    sys.exit(main())
