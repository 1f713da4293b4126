"""Tests of the reading (crates/spec/specs/Reading.antt). All readings are evaluated in antt.

    python3 tools/reading.py store --vectors ../shared/vectors          # makes vectors/ from the published examples
    python3 tools/reading.py examples                                   # the published examples in vectors/
    python3 tools/reading.py random --cmark ../shared/tools/cmark_list.py --count 20000 --seed 1
                                                                        # random texts, against cmark-gfm

`store` makes the list of each example from the HTML that is published with it. `random` needs cmark-gfm with its table extension
through the module named; whatever the reading returns without anything foreign must be what cmark-gfm finds, but for the classes of
`CLASSES`, each with the sentence of the specification that explains it.

Lists are written as in vectors/README.md. In an expected list the number ANY stands for every number.
"""
import collections
import html.entities
import html.parser
import itertools
import json
import os
import random
import re
import sys

import antt
import cmark
import command_line

HERE = os.path.dirname(os.path.abspath(__file__))
VECTORS = os.path.join(HERE, "..", "vectors")
ANY = 1000000000    # one more digit than a list marker can have


# ---- evaluation: the verdict on a reading, given what is expected

PREAMBLE = """use Rattle.spec.specs.Bytes.{Bytes, ascii, same}
use Rattle.spec.specs.Entries.{Piece, Entry, word, other, rule, heading, paragraph, fixed, item, table, foreign}
use Rattle.spec.specs.Reading.{read}

same_piece : Piece → Piece → Bool
same_piece (word x) (word y) = same x y
same_piece (word x) other = false
same_piece other (word y) = false
same_piece other other = false

same_list : {A : Type 0} → (A → A → Bool) → List A → List A → Bool
same_list f [] [] = true
same_list f [] (y ∷ ys) = false
same_list f (x ∷ xs) [] = false
same_list f (x ∷ xs) (y ∷ ys) = f x y && same_list f xs ys

same_pieces : List Piece → List Piece → Bool
same_pieces x y = same_list same_piece x y

same_row : List (List Piece) → List (List Piece) → Bool
same_row x y = same_list same_pieces x y

same_headings : Option (List (List Piece)) → Option (List (List Piece)) → Bool
same_headings none none = true
same_headings none (some y) = false
same_headings (some x) none = false
same_headings (some x) (some y) = same_row x y

same_number : Option ℕ → Option ℕ → Bool
same_number none none = true
same_number none (some y) = false
same_number (some x) none = false
same_number (some x) (some y) = eqb x y || eqb y 1000000000

same_entry : Entry → Entry → Bool
same_entry rule e = elim e [ rule ↦ true | heading n x ↦ false | paragraph x ↦ false | fixed t ↦ false | item d n x ↦ false | table h r ↦ false | foreign ↦ false ]
same_entry (heading m w) e = elim e [ rule ↦ false | heading n x ↦ eqb m n && same_pieces w x | paragraph x ↦ false | fixed t ↦ false | item d n x ↦ false | table h r ↦ false | foreign ↦ false ]
same_entry (paragraph w) e = elim e [ rule ↦ false | heading n x ↦ false | paragraph x ↦ same_pieces w x | fixed t ↦ false | item d n x ↦ false | table h r ↦ false | foreign ↦ false ]
same_entry (fixed w) e = elim e [ rule ↦ false | heading n x ↦ false | paragraph x ↦ false | fixed t ↦ same w t | item d n x ↦ false | table h r ↦ false | foreign ↦ false ]
same_entry (item c m w) e = elim e [ rule ↦ false | heading n x ↦ false | paragraph x ↦ false | fixed t ↦ false | item d n x ↦ eqb c d && (same_number m n && same_pieces w x) | table h r ↦ false | foreign ↦ false ]
same_entry (table g q) e = elim e [ rule ↦ false | heading n x ↦ false | paragraph x ↦ false | fixed t ↦ false | item d n x ↦ false | table h r ↦ same_headings g h && same_list same_row q r | foreign ↦ false ]
same_entry foreign e = false

has_other : List Piece → Bool
has_other [] = false
has_other (word x ∷ ps) = has_other ps
has_other (other ∷ ps) = true

any_other : List (List Piece) → Bool
any_other [] = false
any_other (c ∷ cs) = has_other c || any_other cs

any_others : List (List (List Piece)) → Bool
any_others [] = false
any_others (r ∷ rs) = any_other r || any_others rs

heading_other : Option (List (List Piece)) → Bool
heading_other none = false
heading_other (some cs) = any_other cs

strange : Entry → ℕ
strange rule = 0
strange (heading n x) = cond (has_other x) 3 0
strange (paragraph x) = cond (has_other x) 3 0
strange (fixed t) = 0
strange (item d n x) = cond (has_other x) 3 0
strange (table h r) = cond (heading_other h || any_others r) 3 0
strange foreign = 2

stranger : ℕ → ℕ → ℕ
stranger zero n = n
stranger (suc k) n = suc k

strangest : List Entry → ℕ
strangest [] = 0
strangest (e ∷ es) = stranger (strange e) (strangest es)

judged : ℕ → Bool → ℕ
judged zero b = cond b 0 1
judged (suc k) b = 2

verdict : List Entry → List Entry → ℕ
verdict x y = judged (strangest x) (same_list same_entry x y)
"""

SAME, DIFFERENT, STRANGE = 0, 1, 2    # STRANGE: something foreign or other is in the reading


UNEXPECTED = [("foreign",)]    # equal to no reading


class Judge:
    """verdicts on pairs of a text and an expected list"""

    def __init__(self):
        self.bench = antt.Bench(PREAMBLE)

    def close(self):
        self.bench.close()

    def verdicts(self, pairs, group=200):
        """a guess for each text, in groups of about `group` bytes; then one text at a time, where a group has a wrong guess"""
        terms = ["verdict (read %s) %s" % (antt.literal(t), antt.entries(e)) for t, e in pairs]
        guess = [STRANGE if e == UNEXPECTED else SAME for _, e in pairs]
        groups, size = [[]], 0
        for k, (t, _) in enumerate(pairs):
            if groups[-1] and size + len(t) + 10 > group:
                groups.append([])
                size = 0
            groups[-1].append(k)
            size += len(t) + 10
        wrong = [groups[j] for j in self.bench.failing([[(terms[k], guess[k]) for k in g] for g in groups])]
        singles = [k for g in wrong for k in g]
        singles = [singles[j] for j in self.bench.failing([[(terms[k], guess[k])] for k in singles])]
        while singles:
            for k in singles:
                guess[k] = {SAME: STRANGE, STRANGE: DIFFERENT}[guess[k]]
            singles = [singles[j] for j in self.bench.failing([[(terms[k], guess[k])] for k in singles])]
        return guess

    def foreign(self, texts):
        """for texts in whose reading something is foreign or other: which of the two comes first"""
        bad = set(self.bench.failing([[("strangest (read %s)" % antt.literal(t), 2)] for t in texts]))
        return [k not in bad for k in range(len(texts))]


# ---- the published examples

def words(s):
    return [w for w in re.split(r"[\t\n\x0c\r ]+", s) if w]


class Unfit(Exception):
    """the list has no place for something in the HTML"""


class Tree(html.parser.HTMLParser):
    """elements as [tag, attributes, children]; texts as str"""
    VOID = {"hr", "br", "img"}

    def __init__(self, text):
        super().__init__(convert_charrefs=True)
        self.root = ["", {}, []]
        self.stack = [self.root]
        self.feed(text)
        self.close()

    def handle_starttag(self, tag, attrs):
        node = [tag, dict(attrs), []]
        self.stack[-1][2].append(node)
        if tag not in self.VOID:
            self.stack.append(node)

    def handle_startendtag(self, tag, attrs):
        self.stack[-1][2].append([tag, dict(attrs), []])

    def handle_endtag(self, tag):
        if self.stack[-1][0] != tag:
            raise Unfit("raw HTML")
        self.stack.pop()

    def handle_data(self, data):
        self.stack[-1][2].append(data)

    def handle_comment(self, data):
        raise Unfit("raw HTML")

    handle_decl = handle_pi = unknown_decl = handle_comment


INLINE = {"em": "emphasis", "strong": "emphasis", "code": "code span", "a": "link", "img": "picture", "br": "hard line break"}


def text_of(node):
    out = []
    for c in node[2]:
        if not isinstance(c, str):
            raise Unfit(INLINE.get(c[0], "raw HTML"))
        out.append(c)
    return "".join(out)


def cells_of(tr):
    return [words(text_of(c)) for c in tr[2] if not isinstance(c, str)]


def table_of(node):
    rows = []
    for part in node[2]:
        if not isinstance(part, str):
            rows += [cells_of(tr) for tr in part[2] if not isinstance(tr, str)]
    head = rows[0] if any(rows[0]) else None
    return ["table", head, rows[1:]]


def items_of(node, depth, out, numbers):
    number = int(node[1].get("start", 1)) if node[0] == "ol" else None
    for li in node[2]:
        if isinstance(li, str):
            if li.strip():
                raise Unfit("raw HTML")
            continue
        if li[0] != "li":
            raise Unfit("raw HTML")
        kids = [c for c in li[2] if not isinstance(c, str) or c.strip()]
        first = []
        while kids and (isinstance(kids[0], str) or kids[0][0] in INLINE):
            first.append(kids.pop(0))
        if first:
            ws = words(text_of(["", {}, first]))
        elif kids and kids[0][0] == "p":
            ws = words(text_of(kids.pop(0)))
        else:
            ws = []
        out.append(["item", depth, number, ws])
        if number is not None:
            numbers.append(number)
            number += 1
        for k in kids:
            if isinstance(k, str) or k[0] not in ("ul", "ol"):
                raise Unfit("a leaf in an item that is not its first paragraph")
            items_of(k, depth + 1, out, numbers)


def published(text, tables):
    """the list of an example's HTML; the numbers of its ordered items, counted on"""
    out, numbers = [], []
    tree = Tree(text)
    if len(tree.stack) != 1:
        raise Unfit("raw HTML")
    for n in tree.root[2]:
        if isinstance(n, str):
            if n.strip():
                raise Unfit("raw HTML")
        elif n[0] == "p":
            out.append(["paragraph", words(text_of(n))])
        elif re.fullmatch("h[1-6]", n[0]):
            out.append(["heading", int(n[0][1]), words(text_of(n))])
        elif n[0] == "hr":
            out.append(["rule"])
        elif n[0] == "pre" and len(n[2]) == 1 and not isinstance(n[2][0], str) and n[2][0][0] == "code":
            if n[2][0][1]:
                raise Unfit("a fence with an info string")
            out.append(["fixed", text_of(n[2][0])])
        elif n[0] in ("ul", "ol"):
            items_of(n, 1, out, numbers)
        elif n[0] == "table" and tables:
            out.append(table_of(n))
        elif n[0] == "blockquote":
            raise Unfit("block quote")
        else:
            raise Unfit("raw HTML")
    return out, numbers


def hidden(md, es):
    """what the HTML does not show: the reading takes it for foreign"""
    fixed = [e for e in es if e[0] == "fixed"]
    if fixed and not re.search(r"^ {0,3}(```|~~~)", md, re.M):
        return "indented code (the HTML is that of a fence)"
    if any(e[0] == "heading" for e in es) and re.search(r"\S[^\n]*\n {0,3}(=+|-+)[ \t]*$", md, re.M):
        return "underlined heading (the HTML is that of a # heading)"
    if re.search(r"^ {0,3}\[(\\.|[^\]\\])+\]:\s*\S", md, re.M):
        return "link reference definition (the HTML does not show it)"
    if re.search(r"&(#[0-9]+|#[xX][0-9a-fA-F]+|[A-Za-z][A-Za-z0-9]*);", md):
        return "character reference (the HTML shows what it stands for)"
    return None


COMMONMARK, TABLES = "CommonMark 0.30", "GFM tables"

# examples that look as if they had something hidden, and have not
OPEN = {(COMMONMARK, n) for n in (14, 199, 212, 213, 545, 551)}

# examples that have a place for everything and that the reading calls foreign all the same
EARLY = {(COMMONMARK, n): "foreign too early: " + why for why, ns in (
    ("what stands outside ASCII beside a delimiter run is not looked up", (353, 361, 374, 387, 400)),
    ("what stands between ]( and ) is not looked at", (487, 489, 492, 496, 507, 512)),
    ("the names of character references are not looked up", (28, 30)),
    ("what stands behind the destination of a link reference definition is not looked at", (197, 209)),
) for n in ns}

# examples that CommonMark 0.31 decides otherwise
OTHERWISE = {(COMMONMARK, n): "0.31 decides otherwise: an HTML comment may hold two hyphens, and may be <!--> or <!--->" for n in (625, 626)}


def published_examples(folder):
    """pairs of a source and an example"""
    with open(os.path.join(folder, "commonmark-0.30.json"), encoding="utf-8") as h:
        examples = [(COMMONMARK, e) for e in json.load(h)]
    with open(os.path.join(folder, "gfm-tables.json"), encoding="utf-8") as h:
        examples += [(TABLES, dict(e, section="Tables (extension)")) for e in json.load(h)]
    return examples


def count_on(es):
    """ANY in place of the numbers that the HTML counts on from the number before"""
    last = {}
    for x in es:
        if x[0] == "item" and x[2] is not None:
            d = x[1]
            if d in last and x[2] == last[d] + 1:
                last[d] += 1
                x[2] = ANY
            else:
                last[d] = x[2]


def stored(source, e):
    """an example with its list, or with the reason why it is left out"""
    entry = {"source": source, "example": e["example"], "section": e["section"], "markdown": e["markdown"]}
    md = e["markdown"]
    key = (source, e["example"])
    try:
        es, numbers = published(e["html"], source == TABLES)
        reason = OTHERWISE.get(key) or EARLY.get(key) or (None if key in OPEN else hidden(md, es))
    except Unfit as u:
        reason = str(u)
    if reason:
        entry["left out"] = reason
        return entry
    written = [int(x) for x in re.findall(r"^[ \t]*(?:[-+*][ \t]+)*([0-9]{1,9})[.)](?=[ \t\n])", md, re.M)]
    if written != numbers:
        count_on(es)
    entry["list"] = es
    return entry


def store(args):
    out = [stored(source, e) for source, e in published_examples(args.vectors)]
    with open(os.path.join(VECTORS, "reading.json"), "w", encoding="utf-8") as h:
        h.write("[\n" + ",\n".join(json.dumps(e, ensure_ascii=True) for e in out) + "\n]\n")
    with open(os.path.join(VECTORS, "left-out.md"), "w", encoding="utf-8") as h:
        h.write("# Published examples that the reading's list has no place for\n\n"
                "Made by `tools/reading.py store`. The reading returns something foreign for each.\n\n"
                "| source | example | section | reason |\n| --- | --- | --- | --- |\n")
        for e in out:
            if "left out" in e:
                h.write("| %s | %d | %s | %s |\n" % (e["source"], e["example"], e["section"], e["left out"]))
    n = sum("list" in e for e in out)
    print("%d examples: %d stored with their lists, %d left out" % (len(out), n, len(out) - n))


def as_bytes(es):
    enc = lambda ws: [w.encode() for w in ws]
    out = []
    for e in es:
        if e[0] == "heading":
            out.append((e[0], e[1], enc(e[2])))
        elif e[0] == "paragraph":
            out.append((e[0], enc(e[1])))
        elif e[0] == "fixed":
            out.append((e[0], e[1].encode()))
        elif e[0] == "item":
            out.append((e[0], e[1], e[2], enc(e[3])))
        elif e[0] == "table":
            out.append((e[0], None if e[1] is None else [enc(c) for c in e[1]], [[enc(c) for c in r] for r in e[2]]))
        else:
            out.append((e[0],))
    return out


def examples(args):
    with open(os.path.join(VECTORS, "reading.json"), encoding="utf-8") as h:
        es = json.load(h)
    judge = Judge()
    vs = judge.verdicts([(e["markdown"].encode(), as_bytes(e["list"]) if "list" in e else UNEXPECTED) for e in es])
    judge.close()
    bad = 0
    for e, v in zip(es, vs):
        want = SAME if "list" in e else STRANGE
        if v != want:
            bad += 1
            print("%s %d (%s): verdict %d\n%r\n%r" % (e["source"], e["example"], e["section"], v, e["markdown"],
                                                    e.get("list", e.get("left out"))))
    fit = sum("list" in e for e in es)
    print("%d examples fit the reading, %d do not; %d wrong" % (fit, len(es) - fit, bad))
    return bad == 0


# ---- random texts

ALPHABET = [b" "] * 8 + [b"\n"] * 8 + [b"\t"] * 2 + [b"-"] * 4 + [b"*", b"#", b"=", b"|", b"|", b"a", b"b", b"\\", b"- ", b"- "] + [
    b"+", b"*", b"#", b">", b"=", b"~~~", b"```", b"~", b"|", b":", b".", b")", b"0", b"1", b"1.", b"2)", b"9", b"\\", b"a", b"b",
    b"c", b"`", b"<", b"&", b"[", b"]", b"!", b"\r", b"\r\n", b"_", b"(", b"1. ", b"    ", b"  ", b"\n\n", b"|-|", b"| - |", b"x",
    b";", b"/", b"\"", b"a|b", b":-", b"\xc3\xa9", b"3", b"5", b"7", b"@", b"?", b"{", b"^", b"'", b"**", b"__", b"``"]
RARE = [b"\x0c", b"\x0b", b"\x00", b"\xef\xbb\xbf", b"\xc2\xa0", b"\xe2\x80\x83", b"\x7f", b"\x01", b"\xe2\x82\xac", b"](", b"![",
        b"<!--", b"-->", b"</a>", b"<?", b"&#1;", b"&lt;", b"<a@b.c>", b"http://a", b"<div", b"<pre>", b"<![CDATA["]
SNIPPETS = [
    b"- a\n  - b\n    - c\n", b"1. a\n2. b\n\n   c\n", b"| a | b |\n| - | - |\n| c | d |\n", b"```\nx\n  y\n```\n", b"~~~\na\n~~~\n",
    b"# h #\n", b"a\nb\n\nc\n", b"- a\n\n    1. b\n", b"***\n", b"- \n  a\n", b"10. a\n    - b\n", b"a | b\n:- | -:\nc\n",
    b"a\\|b | c\n-|-\nx\\\\|y|z|w\n", b"    code\n", b"> q\n", b"-\n\n  a\n", b"1) x\n   - y\n\n     z\n", b"\\# a\n", b"1\\. a\n",
    b"\\- a\n", b"*a* _b_\n", b"a_b_c\n", b"<a>\n", b"a & b\n", b"[a]: b\n", b"[a](b)\n", b"a  \nb\n", b"|\n|-|\n",
    b"| |\n|-|\n||\n|\n", b"-\ta\n\tb\n", b"- a\n-\tb\n\n\tc\n", b"### a ##\n", b"a\n===\n", b"a\n---\n", b"+ a\n+ b\n* c\n",
    b"1. a\n   1. b\n      1. c\n", b"  ```\n\tx\n   y\n  ```\n", b"2 < 3 > 1\n", b"a * b * c\n", b"[x] y\n"]
PLAIN = [b"a", b"b c", b"", b"\\*a", b"# x", b"- z", b"    k", b"a\\_b", b"x \\| y", b"1\\. z", b"3) z", b"\\\\", b"\\[x\\]", b"e*", b"\\#"]


def alphabet_text(rnd):
    return b"".join(rnd.choice(ALPHABET) for _ in range(rnd.randint(1, 16)))


def narrow_text(rnd):
    few = rnd.sample(ALPHABET, 6) + [b"\n", b" ", b"a"]
    return b"".join(rnd.choice(few) for _ in range(rnd.randint(1, 24)))


def rare_text(rnd):
    return b"".join(rnd.choice(RARE if rnd.random() < 0.3 else ALPHABET) for _ in range(rnd.randint(1, 12)))


def mutated_text(rnd):
    t = bytearray(b"".join(rnd.choice(SNIPPETS) for _ in range(rnd.randint(1, 3))))
    for _ in range(rnd.randint(0, 5)):
        i, how = rnd.randrange(len(t) + 1), rnd.random()
        if how < 0.5:
            t[i:i] = rnd.choice(ALPHABET)
        elif how < 0.8:
            del t[i:i + rnd.randint(1, 2)]
        else:
            j = rnd.randrange(len(t) + 1)
            t[i:i] = t[j:j + rnd.randint(1, 6)]
    return bytes(t)


def nested_text(rnd):
    return b"".join(b" " * rnd.choice([0, 0, 1, 2, 3, 4, 5, 6, 8])
                    + rnd.choice([b"- ", b"* ", b"1. ", b"3) ", b"10. ", b"", b"", b"-", b"1.", b"-\t"])
                    + rnd.choice(PLAIN) + rnd.choice([b"\n", b"\n", b"\n\n"]) for _ in range(rnd.randint(1, 6)))


def escaped_word(rnd):
    w = "".join(rnd.choice("ab1é!\"#$%'()*+,-./:;<=>?@[\\]^_`{|}~") for _ in range(rnd.randint(1, 4)))
    if rnd.random() < 0.9:
        w = re.sub(r"([!-/:-@\[-`{-~])", r"\\\1", w)
    return w.encode()


def sheet_text(rnd):
    """blocks of escaped words as a writer would set them"""
    line = lambda: b" ".join(escaped_word(rnd) for _ in range(rnd.randint(1, 3)))
    out = []
    for _ in range(rnd.randint(1, 3)):
        k = rnd.randrange(6)
        if k == 0:
            out.append(line())
        elif k == 1:
            out.append(b"#" * rnd.randint(1, 6) + b" " + line())
        elif k == 2:
            n = rnd.randint(1, 3)
            rows = [[line() for _ in range(n)] for _ in range(rnd.randint(1, 2))]
            head = [line() for _ in range(n)] if rnd.random() < 0.6 else [b" "] * n
            out.append(b"\n".join(b"| " + b" | ".join(r) + b" |" for r in [head, [b"-" * rnd.randint(1, 3)] * n] + rows))
        elif k == 3:
            f = rnd.choice([b"```", b"````", b"~~~"])
            out.append(f + b"\n" + b"".join(rnd.choice([b"a", b" b", b"\tc", b"``", b"~~~ x", b"", b"  "]) + b"\n"
                                            for _ in range(rnd.randint(0, 3))) + f)
        elif k == 4:
            out.append(rnd.choice([b"---", b"***", b"- - -"]))
        else:
            ls, depth = [], 0
            for _ in range(rnd.randint(1, 4)):
                depth = rnd.randint(0, depth + 1) if ls else 0
                ls.append(b"    " * depth + rnd.choice([b"- ", b"1. ", b"999999999. ", b"0. ", b"12. "]) + line()
                          + rnd.choice([b"", b"", b"\n"]))
            out.append(b"\n".join(ls))
    return b"\n\n".join(out)


KINDS = [(alphabet_text, 30), (narrow_text, 12), (rare_text, 10), (mutated_text, 26), (nested_text, 10), (sheet_text, 12)]


def random_text(rnd):
    while True:
        t = rnd.choices([k for k, _ in KINDS], [w for _, w in KINDS])[0](rnd)
        try:
            t.decode()
            return t
        except UnicodeDecodeError:
            pass


def with_lf(t):
    """2.1: "A line ending is a line feed (U+000A), a carriage return (U+000D) not followed by a line feed, or a carriage return and a
    following line feed." cmark_list looks up lines by LF"""
    return t.replace(b"\r\n", b"\n").replace(b"\r", b"\n")


class Outside:
    def __init__(self, path):
        self.m = cmark.load(path)

    def firsts(self, text):
        """for each item in document order: is it its list's first"""
        out = []

        def go(n):
            for k in self.m.kids(n):
                if self.m.ty(k) == "list":
                    for j, li in enumerate(self.m.kids(k)):
                        out.append(j == 0)
                        go(li)
        with cmark.document(self.m, text) as root:
            go(root)
        return out

    def list(self, text):
        """what cmark-gfm finds, or None if that holds something foreign; a number that is not its list's first becomes ANY"""
        text = with_lf(text)
        es = self.m.flat(text)
        if any(e[0] == "foreign" for e in es):
            return None
        first = iter(self.firsts(text))
        out = []
        for e in es:
            if e[0] == "words":
                out.append(("paragraph", e[1]))
            elif e[0] == "item":
                f = next(first)
                out.append(("item", e[1], e[2] if f or e[2] is None else ANY, e[3]))
            else:
                out.append(e)
        return out


def emptied(t):
    x = re.sub(rb"(?m)^([ \t]*(?:(?:[-+*]|[0-9]{1,9}[.)])[ \t]*)+)\n[ \t]+$", rb"\1\n", with_lf(t))
    return [x] if x != with_lf(t) else []


def pipes(t):
    places = [m.start() for m in re.finditer(rb"(?<!\\)(?:\\\\)+\|", t)][:6]
    out = []
    for k in range(1, len(places) + 1):
        for some in itertools.combinations(places, k):
            x = bytearray(t)
            for i in reversed(some):
                x[i:i] = b"\\"
            out.append(bytes(x))
    return out


# Characters that stand for others in what cmark-gfm is given, and that it treats like letters: they are put back in what it finds
MARK, TABULATION = "\ufeff".encode(), b"\x0b"
STAND_INS = [("\ue000".encode(), MARK), ("\ue001".encode(), TABULATION)]


def marked(t):
    """with a character in place of U+FEFF at the beginning"""
    return [STAND_INS[0][0] + t[len(MARK):]] if t.startswith(MARK) else []


def tabulated(t):
    """with a character in place of each VT among the blanks between a pipe and the content of a cell, or the pipe that ends it; not
    behind the last pipe of a line, nor in the first line of hyphens, colons, pipes and blanks below another"""
    out, above, table = [], False, False
    for line in re.split(rb"(\r\n|\n|\r)", t):
        if line in (b"\r\n", b"\n", b"\r"):
            out.append(line)
            continue
        dashes = re.fullmatch(rb"[ \t>*+0-9.)-]*[ \t\x0b\x0c|:-]*-[ \t\x0b\x0c|:-]*", line)
        if not (dashes and above and not table):
            line = re.sub(rb"\|[ \t\x0b\x0c]+(?=[^ \t\x0b\x0c])", lambda m: m.group().replace(TABULATION, STAND_INS[1][0]), line)
        out.append(line)
        table = bool(line.strip(b" \t")) and (table or bool(dashes and above))
        above = bool(line.strip(b" \t"))
    x = b"".join(out)
    return [x] if x != t else []


def restored(value):
    """a list that cmark-gfm found, with the characters for which others stood"""
    if isinstance(value, bytes):
        for there, here in STAND_INS:
            value = value.replace(there, here)
        return value
    return type(value)(map(restored, value)) if isinstance(value, (list, tuple)) else value


# Texts on which cmark-gfm departs from the specification's words: for each class, other texts that by the specification have the
# same list, once `restored`. A difference is explained by the smallest set of classes for which cmark-gfm finds the reading's list in
# such a text; nothing else excuses one
CLASSES = [
    ("U+FEFF at the beginning, which cmark-gfm drops; the specification does not mention it: \"Any sequence of characters is a valid "
     "CommonMark document.\"", marked),
    ("a blank line with blanks straight behind an item that is empty so far: \"A list item can begin with at most one blank line.\"",
     emptied),
    ("an even count of backslashes before a pipe in the paragraph above a table, where cmark-gfm drops one: \"Any ASCII punctuation "
     "character may be backslash-escaped\"", pipes),
    ("line tabulation (VT) behind a pipe, which cmark-gfm trims: \"Spaces between pipes and cell content are trimmed.\"", tabulated),
]


def explanations(t, outside):
    """sets of classes, the smallest first, each with pairs of the text and a list, one of which must agree"""
    if any(there in t for there, _ in STAND_INS):
        return
    for n in range(1, len(CLASSES) + 1):
        for some in itertools.combinations(range(len(CLASSES)), n):
            texts = [t]
            for k in some:
                texts = [y for x in texts for y in CLASSES[k][1](x)]
            lists = [restored(es) for es in map(outside.list, texts) if es is not None]
            if lists:
                yield some, [(t, es) for es in lists]


def explained_by(t, outside, judge):
    """the classes that explain a difference; none if it is unexplained"""
    for some, pairs in explanations(t, outside):
        if SAME in judge.verdicts(pairs):
            return some
    return ()


WHY = [
    ("the name of a character reference is not looked up", rb"&[A-Za-z][A-Za-z0-9]*;"),
    ("what stands behind the destination of a link reference definition is not looked at", rb"\[[^\]]*\]:"),
    ("what stands between ]( and ) is not looked at", rb"\]\((?s:.*)\)"),
    ("a second delimiter row in a paragraph", rb"(?m)^[ >*+0-9.)-]*[ |:-]*-[ |:-]*\n(?s:.*)^[ |:-]*-[ |:-]*$"),
    ("delimiter runs beside bytes outside ASCII", rb"[*_](?s:.*)[*_]"),
    ("what stands between < and > is not looked at to the end", rb"<[A-Za-z0-9/!?.#$%&'*+=^_`{|}~-](?s:.*)>"),
    ("<! and a letter begins an HTML block since 0.30; cmark-gfm asks for a capital letter", rb"<![A-Za-z]"),
]


def unseen(t, es):
    """what cmark-gfm's tree does not show: then the reading is not too early"""
    for m in re.finditer(rb"&(#[0-9]{1,7}|#[xX][0-9a-fA-F]{1,6}|[A-Za-z][A-Za-z0-9]*);", t):
        if m.group(1).startswith(b"#") or m.group(1).decode() + ";" in html.entities.html5:
            return "a character reference"
    if re.search(rb"\]:", t) and b"]:" not in repr(es).encode():
        return "a link reference definition"
    return None


def why(t):
    for name, pattern in WHY:
        if re.search(pattern, with_lf(t)):
            return name
    return "other"


class Findings:
    """what comes of the verdicts on random texts"""

    def __init__(self, judge, outside):
        self.judge, self.outside = judge, outside
        self.count, self.reasons, self.hiding, self.explained = (collections.Counter() for _ in range(4))
        self.bad, self.shortest = [], {}

    def add(self, texts, lists):
        """lists: what cmark-gfm finds in each text, or None"""
        vs = self.judge.verdicts([(t, UNEXPECTED if c is None else c) for t, c in zip(texts, lists)])
        self.count.update(vs)
        early = []
        for t, c, v in zip(texts, lists, vs):
            if v == STRANGE and c is not None:
                u = unseen(t, c)
                if u:
                    self.hiding[u] += 1
                else:
                    early.append(t)
        for t, f in zip(early, self.judge.foreign(early)):
            r = ("foreign: " if f else "other: ") + why(t)
            self.reasons[r] += 1
            if len(t) < len(self.shortest.get(r, t + b"x")):
                self.shortest[r] = t
        for t, v in zip(texts, vs):
            if v == DIFFERENT:
                some = explained_by(t, self.outside, self.judge)
                self.explained.update(some)
                self.bad += [] if some else [t]

    def progress(self, seed):
        print("seed %d: %d texts, %d free of anything foreign, %d foreign too early, %d explained, %d wrong"
              % (seed, sum(self.count.values()), self.count[SAME] + self.count[DIFFERENT], sum(self.reasons.values()),
                 self.count[DIFFERENT] - len(self.bad), len(self.bad)), flush=True)

    def report(self):
        print("foreign although cmark-gfm's tree has nothing foreign: %d" % (sum(self.hiding.values()) + sum(self.reasons.values())))
        for r, n in self.hiding.most_common():
            print("  %6d  not too early: %s, which the tree does not show" % (n, r))
        for r, n in self.reasons.most_common():
            print("  %6d  too early, %s; the shortest: %r" % (n, r, self.shortest[r]))
        print("differences explained by the specification:")
        for k, n in self.explained.most_common():
            print("  %6d  %s" % (n, CLASSES[k][0]))
        if self.bad:
            t = min(self.bad, key=len)
            print("WRONG, the shortest of %d: %r\ncmark-gfm finds %r" % (len(self.bad), t, self.outside.list(t)))


def random_run(args):
    rnd = random.Random(args.seed)
    outside = Outside(args.cmark)
    texts = [random_text(rnd) for _ in range(args.count)]
    lists = [outside.list(t) for t in texts]
    judge = Judge()
    found = Findings(judge, outside)
    step = 2000
    for k in range(0, len(texts), step):
        found.add(texts[k:k + step], lists[k:k + step])
        found.progress(args.seed)
    judge.close()
    found.report()
    return not found.bad


def main():
    p = command_line.parser(__doc__)
    sub = p.add_subparsers(dest="command", required=True)
    s = sub.add_parser("store", help="make vectors/ from the published examples")
    s.add_argument("--vectors", required=True, help="folder of the published examples")
    sub.add_parser("examples", help="read the examples in vectors/")
    r = sub.add_parser("random", help="read random texts, and compare with cmark-gfm")
    r.add_argument("--cmark", required=True, help=command_line.CMARK)
    r.add_argument("--count", type=int, default=20000)
    r.add_argument("--seed", type=int, default=1)
    args = p.parse_args()
    if args.command == "store":
        store(args)
        return 0
    return 0 if (examples if args.command == "examples" else random_run)(args) else 1


if __name__ == "__main__":
    sys.exit(main())
