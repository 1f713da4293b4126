"""Tests of the reading of emphasis (crates/spec/specs/Pieces/EmphasisReading.antt) against cmark-gfm. All readings are evaluated in antt.

    python3 tools/emphasis.py examples --vectors ../shared/vectors      # the published examples of the section on emphasis
    python3 tools/emphasis.py random --cmark ../shared/tools/cmark_list.py --count 5000 --seed 1
    python3 tools/emphasis.py short --cmark ../shared/tools/cmark_list.py --signs "a *_" --length 7      # all texts up to that length

A text of one line is given to cmark-gfm as a heading, so that no byte of it begins a block, one of more lines as a paragraph; a text that is
no paragraph there is left out. What is read must be what cmark-gfm has: bytes, emphasis and strong emphasis. A text that is not read is
right where cmark-gfm finds something else; where it does not ("too early"), it is counted. Of the characters outside ASCII those of `OUTSIDE` are told.

One difference is known. The appendix of 0.31 has `openers_bottom` "indexed to the length of the closing delimiter run (modulo 3) and to
whether the closing delimiter can also be an opener"; cmark-gfm 0.29 has the length alone, and so misses openers. A difference is put down to
that where `procedure`, the appendix's procedure with its list and its `openers_bottom`, gives cmark-gfm's answer with the index of 0.29 and the
definition's with that of 0.31.
"""
import argparse
import collections
import html
import importlib.util
import itertools
import json
import os
import random
import re
import sys

import antt

OUTSIDE = ["\u00e9", "\u00a0", "\u2014"]    # text, white space, punctuation

PREAMBLE = """use Rattle.spec.specs.Bytes.{Bytes, ascii, same, starts_with, ends_with}
use Rattle.spec.specs.Reading.Inline.{Beside, beside_white, beside_punctuation, beside_text, beside}
use Rattle.spec.specs.Pieces.EmphasisReading.{Inlines, nothing, byte, emphasis, strong, inlines_by}

known : ℕ → Beside
known b = cond (leb 128 b) beside_text (beside b)

head_of : Bytes → Beside
head_of [] = beside_white
head_of (b ∷ s) = known b

first_of : Bytes → Beside
first_of s =
    cond (starts_with (0xC2 ∷ 0xA0 ∷ []) s) beside_white
    (cond (starts_with (0xE2 ∷ 0x80 ∷ 0x94 ∷ []) s) beside_punctuation (head_of s))

last_of : Bytes → Beside
last_of s =
    cond (ends_with (0xC2 ∷ 0xA0 ∷ []) s) beside_white
    (cond (ends_with (0xE2 ∷ 0x80 ∷ 0x94 ∷ []) s) beside_punctuation (head_of (drop (length s - 1) s)))

code : Inlines → List ℕ
code nothing = []
code (byte b x) = b ∷ code x
code (emphasis z x) = 300 ∷ (code z ++ (301 ∷ code x))
code (strong z x) = 302 ∷ (code z ++ (303 ∷ code x))

judged : Option Inlines → List ℕ → ℕ
judged none e = 2
judged (some y) e = cond (same (code y) e) 0 1

verdict : Bytes → List ℕ → ℕ
verdict t e = judged (inlines_by last_of first_of t) e
"""

SAME, DIFFERENT, UNREAD = 0, 1, 2
BEGIN = {"emph": 300, "strong": 302}


class Other(Exception):
    """the text is no leaf, or holds something that is not read"""


class Cmark:
    def __init__(self, path):
        spec = importlib.util.spec_from_file_location("cmark_list", path)
        self.m = importlib.util.module_from_spec(spec)
        spec.loader.exec_module(self.m)

    def code(self, node):
        out = []
        for k in self.m.kids(node):
            t = self.m.ty(k)
            if t == "text":
                out += self.m._c.cmark_node_get_literal(k) or b""
            elif t == "softbreak":
                out.append(10)
            elif t in BEGIN:
                out += [BEGIN[t]] + self.code(k) + [BEGIN[t] + 1]
            else:
                raise Other(t)
        return out

    def read(self, text):
        """the code of the leaf; None where it holds something else; Other where the text is no leaf"""
        c = self.m._c
        source = text if b"\n" in text else b"# " + text
        p = c.cmark_parser_new(0)
        c.cmark_parser_feed(p, source, len(source))
        d = c.cmark_parser_finish(p)
        try:
            blocks = list(self.m.kids(d))
            if len(blocks) != 1 or self.m.ty(blocks[0]) != ("paragraph" if b"\n" in text else "heading"):
                raise Other("blocks")
            try:
                return self.code(blocks[0])
            except Other:
                return None
        finally:
            c.cmark_node_free(d)
            c.cmark_parser_free(p)


class Judge:
    def __init__(self):
        self.bench = antt.Bench(PREAMBLE)

    def close(self):
        self.bench.close()

    def verdicts(self, pairs, group=12):
        def term(t, e):
            return "verdict %s (%s)" % (antt.literal(t), " ∷ ".join([str(b) for b in e or []] + ["[]"]))
        terms = [term(t, e) for t, e in pairs]
        guess = [UNREAD if e is None else SAME for _, e in pairs]
        groups = [list(range(k, min(k + group, len(pairs)))) for k in range(0, len(pairs), group)]
        wrong = self.bench.failing([[(terms[k], guess[k]) for k in g] for g in groups])
        singles = [k for j in wrong for k in groups[j]]
        for turn in range(3):
            singles = [singles[j] for j in self.bench.failing([[(terms[k], guess[k])] for k in singles])]
            for k in singles:
                guess[k] = (guess[k] + 2) % 3    # SAME, UNREAD, DIFFERENT
        return guess


WHITE, PUNCTUATION, TEXT = range(3)


def kind(c):
    if c == "" or c in " \t\n\f\r\u00a0":
        return WHITE
    return PUNCTUATION if re.match(r"[!-/:-@\[-`{-~\u2014]", c) else TEXT


def place(items, x):
    return next(k for k, y in enumerate(items) if y is x)


def procedure(text, old):
    """the code of a text of text and emphasis alone; old: the index of 0.29"""
    s, i, items = text.decode(), 0, []
    while i < len(s):
        if s[i] == "\\" and i + 1 < len(s) and re.match(r"[!-/:-@\[-`{-~]", s[i + 1]):
            items.append([None, s[i + 1].encode()])
            i += 2
            continue
        if s[i] not in "*_":
            items.append([None, s[i].encode()])
            i += 1
            continue
        j = i
        while j < len(s) and s[j] == s[i]:
            j += 1
        p, n = kind(s[i - 1] if i else ""), kind(s[j] if j < len(s) else "")
        left = n != WHITE and (n != PUNCTUATION or p != TEXT)
        right = p != WHITE and (p != PUNCTUATION or n != TEXT)
        star = s[i] == "*"
        items.append([{"c": s[i], "length": j - i, "left": j - i, "opens": left and (star or not right or p == PUNCTUATION),
                       "closes": right and (star or not left or n == PUNCTUATION)}, None])
        i = j
    stack, bottom, at = [x for x in items if x[0] is not None], {}, 0
    while at < len(stack):
        d = stack[at][0]
        if not d["closes"]:
            at += 1
            continue
        key = (d["c"], d["length"] % 3) if old else (d["c"], d["length"] % 3, d["opens"])
        k = at - 1
        while k >= 0 and stack[k] is not bottom.get(key):
            o = stack[k][0]
            both, total = o["closes"] or d["opens"], o["length"] + d["length"]
            if o["c"] == d["c"] and o["opens"] and not (both and total % 3 == 0 and o["length"] % 3 != 0):
                break
            k -= 1
        else:
            k = -1
        if k < 0:
            if at:
                bottom[key] = stack[at - 1]
            if d["opens"]:
                at += 1
            else:
                del stack[at]
            continue
        o = stack[k][0]
        n = 2 if o["left"] >= 2 and d["left"] >= 2 else 1
        a, b = place(items, stack[k]), place(items, stack[at])
        items[a + 1:b] = [["node", n, items[a + 1:b]]]
        del stack[k + 1:at]
        at = k + 1
        o["left"] -= n
        d["left"] -= n
        for x, j in ((stack[at], at), (stack[k], k)):
            if x[0]["left"] == 0:
                del items[place(items, x)]
                del stack[j]
                at -= j < at

    def code(items):
        out = []
        for x in items:
            if x[0] == "node":
                out += [300 + 2 * (x[1] - 1)] + code(x[2]) + [301 + 2 * (x[1] - 1)]
            else:
                out += x[1] if x[0] is None else (x[0]["c"] * x[0]["left"]).encode()
        return out
    return code(items)


def tidy(text):
    """blanks at the ends of lines go: a reader drops them"""
    return re.sub(rb"[ \t]*\n[ \t]*", b"\n", text.strip(b" \t\n"))


def random_text(rnd):
    signs = ["a", "b", " ", "*", "**", "***", "_", "__", "*", "_", "!", ".", "(", ")", "-", "\"", "'", ",", "$", "~", "\\", "\\*", "1"] + OUTSIDE
    rare = ["\n", "\n", "[", "]", "`", "<", "&", "&amp;", "\t", "****", "___", "[a](b)", "`a`", "+", "\\\\"]
    n = rnd.randrange(1, 16)
    parts = [rnd.choice(rare) if rnd.random() < 0.06 else rnd.choice(signs) for _ in range(n)]
    if rnd.random() < 0.5:    # long runs and few neighbours
        few = rnd.sample(["a", " ", "!", "\u00e9"], 2)
        parts = [rnd.choice(few + ["*", "_", "*"]) for _ in range(n)]
    return tidy("".join(parts).encode())


def compare(texts, cmark, show):
    pairs, left_out = [], 0
    for t in texts:
        try:
            pairs.append((t, cmark.read(t)))
        except Other:
            left_out += 1
    judge = Judge()
    count, wrong, early, total = collections.Counter(), [], [], 0

    def indexed(t, e):
        return e is not None and procedure(t, True) == e and judge.verdicts([(t, procedure(t, False))]) == [SAME]

    step = 4800
    for k in range(0, len(pairs), step):
        part = pairs[k:k + step]
        for (t, e), v in zip(part, judge.verdicts(part)):
            total += 1
            if v == UNREAD:
                if e is None:
                    count["not read"] += 1
                elif b"&amp;" in t:
                    count["not read, for a character reference, which cmark-gfm's tree does not show"] += 1
                else:
                    count["not read too early"] += 1
                    early.append(t)
            elif v == DIFFERENT and indexed(t, e):
                count["explained by the index of openers_bottom"] += 1
            elif v == DIFFERENT or e is None:
                wrong.append((t, e))
            else:
                count["same, with emphasis" if any(b >= 300 for b in e) else "same, text alone"] += 1
        print("%d texts (%d left out): %s; %d wrong" % (total, left_out, ", ".join("%d %s" % (n, w) for w, n in count.most_common()), len(wrong)), flush=True)
    judge.close()
    for t in sorted(early, key=len)[:show]:
        print("not read too early: %r" % t)
    for t, e in sorted(wrong, key=lambda p: len(p[0]))[:show]:
        print("WRONG: %r, cmark-gfm has %r" % (t, e))
    return not wrong


def published(path):
    """the Markdown and the code of each example that is one paragraph of text and emphasis, and how many others there are"""
    with open(os.path.join(path, "commonmark-0.30.json"), encoding="utf-8") as h:
        examples = [e for e in json.load(h) if e["section"] == "Emphasis and strong emphasis"]
    marks = {"<em>": 300, "</em>": 301, "<strong>": 302, "</strong>": 303}
    pairs = []
    for e in examples:
        inner = re.fullmatch(r"<p>(.*)</p>\n", e["html"], re.S)
        parts = re.split(r"(<[^>]*>)", inner.group(1)) if inner else ["<>"]
        if all(x in marks or not x.startswith("<") for x in parts):
            code = [c for x in parts for c in ([marks[x]] if x in marks else html.unescape(x).encode())]
            pairs.append((tidy(e["markdown"].encode()), code))
    return pairs, len(examples) - len(pairs)


def examples(args):
    pairs, others = published(args.vectors)
    judge = Judge()
    bad = [t for (t, _), v in zip(pairs, judge.verdicts(pairs)) if v != SAME]
    judge.close()
    print("%d examples (%d others hold something else): %d wrong" % (len(pairs), others, len(bad)))
    for t in bad:
        print("WRONG: %r" % t)
    return not bad


def main():
    p = argparse.ArgumentParser(description=__doc__, formatter_class=argparse.RawDescriptionHelpFormatter)
    sub = p.add_subparsers(dest="command", required=True)
    e = sub.add_parser("examples")
    e.add_argument("--vectors", required=True)
    r = sub.add_parser("random")
    r.add_argument("--count", type=int, default=5000)
    r.add_argument("--seed", type=int, default=1)
    s = sub.add_parser("short")
    s.add_argument("--signs", default="a *_")
    s.add_argument("--length", type=int, default=7)
    for q in (r, s):
        q.add_argument("--cmark", required=True)
        q.add_argument("--show", type=int, default=10)
    args = p.parse_args()
    if args.command == "examples":
        return 0 if examples(args) else 1
    if args.command == "random":
        rnd = random.Random(args.seed)
        texts = {}
        while len(texts) < args.count:
            texts[random_text(rnd)] = None
        texts = list(texts)
    else:
        texts = ["".join(c).encode() for n in range(1, args.length + 1) for c in itertools.product(args.signs, repeat=n)]
        texts = [t for t in texts if tidy(t) == t]
    return 0 if compare(texts, Cmark(args.cmark), args.show) else 1


if __name__ == "__main__":
    sys.exit(main())
