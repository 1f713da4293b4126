"""The causes by which a text of the writer is read otherwise than its tree shows: for misread.py, which describes what a class is.

A class has a name and a change to the tree that takes away its cause and nothing else. Those that are marked `same` do not alter what
the tree shows. The changes are made from the tree, and from the text where the cause lies in its beginning.
"""
import collections
import itertools
import re
import unicodedata

import shown
from shown import BLOCKS, BREAK, EMPHASIS, HEADINGS, WHITE
from trees import attribute, el

LISTS = ("ul", "ol")
PLAIN_BLOCKS = BLOCKS - set(HEADINGS)
PARTS = ("li", "tr", "th", "td")
INLINES = ("a", "b", "i", "strong", "em", "code", "span", "br", "img")
IMAGE = ("img",)
MARK = "\ufeff".encode()
WHITES = set(WHITE)
UNICODE_BLANKS = set("\xa0\u1680\u2000\u2001\u2002\u2003\u2004\u2005\u2006\u2007\u2008\u2009\u200a\u202f\u205f\u3000")
CLASSES = []
Class = collections.namedtuple("Class", "name change same")


def cause(name, same=False):
    """same: the change does not alter what the tree shows"""
    def add(change):
        CLASSES.append(Class(name, change, same))
        return change
    return add


def rewrite(kids, f, trail=()):
    """f: a node whose children are rewritten, and the elements round it, outermost first -> the nodes in its place"""
    out = []
    for node in kids:
        if not isinstance(node, bytes):
            node = (node[0], node[1], rewrite(node[2], f, trail + (node,)))
        out += f(node, trail)
    return out


def on_texts(sheet, f):
    """f: a text and the elements round it -> the text in its place"""
    return rewrite(sheet, lambda n, trail: [f(n, trail)] if isinstance(n, bytes) else [n])


def on_elements(sheet, f):
    return rewrite(sheet, lambda n, trail: [n] if isinstance(n, bytes) else f(n, trail))


def linked(node):
    return not isinstance(node, bytes) and node[0] == "a" and attribute(node[1], b"href") is not None


def below(node):
    """the node and all nodes below it"""
    yield node
    if not isinstance(node, bytes):
        for k in node[2]:
            yield from below(k)


def holds(node, names):
    return any(not isinstance(n, bytes) and n[0] in names for n in below(node))


def blank(node):
    """nothing to see in it"""
    return not shown.of_tree([node])


def textual(trail):
    """in a link whose body is written as text alone: one with text and without a picture"""
    return any(linked(n) and not holds(n, ("img",)) and shown.text_below(n) for n in trail)


Token = collections.namedtuple("Token", "what styles path place")


def runs(sheet):
    """the runs of inline content, uncollapsed: what, its styles, the path to its node and its place in the text"""
    out = [[]]

    def go(kids, path, styles):
        for k, n in enumerate(kids):
            p = path + (k,)
            if isinstance(n, bytes):
                out[-1].extend(Token(c, styles, p, j) for j, c in enumerate(n.decode()))
            elif n[0] in ("br", "img"):
                out[-1].append(Token(BREAK if n[0] == "br" else IMAGE, styles, p, None))
            elif n[0] in BLOCKS or n[0] in PARTS:
                out.append([])
                if n[0] != "pre":
                    go(n[2], p, styles)
                out.append([])
            else:
                go(n[2], p, styles | shown.style_of(n))
    go(sheet, (), frozenset())
    return [r for r in out if r]


def edited(sheet, drop=(), before=None, after=None, path=()):
    """without the tokens or whole nodes in `drop`: pairs of a path and a place, or of a path and None; with nodes set before and
    behind those in `before` and `after`. Inline elements that lose all their content go too"""
    out = []
    for k, n in enumerate(sheet):
        p = path + (k,)
        if (p, None) in drop:
            continue
        out += (before or {}).get(p, [])
        if isinstance(n, bytes):
            left = "".join(c for j, c in enumerate(n.decode()) if (p, j) not in drop).encode()
            out += [left] if left or not n else []
        else:
            kids = edited(n[2], drop, before, after, p)
            out += [(n[0], n[1], kids)] if kids or not n[2] or n[0] in BLOCKS or n[0] in PARTS else []
        out += (after or {}).get(p, [])
    return out


def at(sheet, path):
    for k in path[:-1]:
        sheet = sheet[k][2]
    return sheet[path[-1]]


def spans(sheet, chosen):
    """for each chosen inline element without blocks that shows something: its path, its run, and where in the run it begins and ends"""
    for run in runs(sheet):
        paths = {t.path[:n] for t in run for n in range(1, len(t.path))}
        for p in sorted(paths):
            if chosen(at(sheet, p)) and not holds(at(sheet, p), BLOCKS):
                inside = [k for k, t in enumerate(run) if t.path[:len(p)] == p]
                if any(run[k].what not in WHITES for k in inside):
                    yield p, run, inside[0], inside[-1] + 1


def emphases(sheet):
    return spans(sheet, lambda n: n[0] in EMPHASIS)


def meeting(sheet):
    """pairs of emphasis elements of which the second begins where the first ends, by their paths"""
    found = [(p, id(run), i, j) for p, run, i, j in emphases(sheet)]
    return [(p, q) for p, run, _, j in found for q, other, i, _ in found if run == other and i == j]


def kind(sheet, path):
    return EMPHASIS[at(sheet, path)[0]]


REFERENCE = re.compile(rb"&(#[0-9]{1,7}|#[xX][0-9a-fA-F]{1,6}|[A-Za-z][A-Za-z0-9]*);")


@cause("`&` is never escaped in text, in a title or in the description of a picture")
def references(sheet, text):
    cut = lambda s: REFERENCE.sub(rb"\1;", s)
    sheet = on_texts(sheet, lambda t, trail: t if any(n[0] in ("pre", "code") for n in trail) else cut(t))
    return on_elements(sheet, lambda n, trail: [(n[0], [(k, cut(v) if k in (b"alt", b"title") else v) for k, v in n[1]], n[2])])


@cause("NUL is read as U+FFFD")
def nul(sheet, text):
    sheet = on_texts(sheet, lambda t, trail: t.replace(b"\0", b"\xef\xbf\xbd"))
    return on_elements(sheet, lambda n, trail: [(n[0], [(k, v.replace(b"\0", b"\xef\xbf\xbd")) for k, v in n[1]], n[2])])


@cause("U+FEFF at the beginning of the text is dropped")
def mark(sheet, text):
    left = [1 if text.startswith(MARK) else 0]

    def f(t, trail):
        n = min(left[0], t.count(MARK))
        left[0] -= n
        return t.replace(MARK, "\u2060".encode(), n)
    return on_texts(sheet, f)


@cause("blanks at the ends of emphasis in several texts stay inside the marks", same=True)
def blanks_in_emphasis(sheet, text):
    drop, before, after = set(), {}, {}
    for p, run, i, j in emphases(sheet):
        for tokens, place in ((run[i:j], before), (run[i:j][::-1], after)):
            white = list(itertools.takewhile(lambda t: t.what in WHITES, tokens))
            drop |= {(t.path, t.place) for t in white}
            if white:
                place[p] = [b" "]
    return edited(sheet, drop, before, after)


@cause("blanks before the first word of a line: its escapes are those of a word inside the line", same=True)
def blanks_first(sheet, text):
    drop, marks = set(), {p for p, _, _, _ in emphases(sheet)}
    for run in runs(sheet):
        start = True
        for t in run:
            if t.what == BREAK:
                start = True
            elif start and t.what in WHITES:
                drop |= set() if any(t.path[:n] in marks for n in range(len(t.path))) else {(t.path, t.place)}
            else:
                start = False
    return edited(sheet, drop)


@cause("a word in several texts: what is escaped is decided text by text", same=True)
def parts(sheet, text):
    def nothing(n):
        return n[0] in INLINES and not holds(n, BLOCKS | {"br", "img"}) and not shown.text_below(n) and (n[0] != "a" or linked(n))
    sheet = on_elements(sheet, lambda n, trail: [] if nothing(n) else n[2] if n[0] == "span" else [n])

    def solid(c):
        return c != b"" and c.decode("latin-1") not in WHITES

    def joined(kids):
        out = []
        for n in kids:
            if n == b"":
                continue
            if isinstance(n, bytes) and out and isinstance(out[-1], bytes) and solid(out[-1][-1:]) and solid(n[:1]):
                out[-1] += n
            else:
                out.append(n if isinstance(n, bytes) else (n[0], n[1], joined(n[2])))
        return out
    return joined(sheet)


@cause("`a` without `href`: the text so far loses the blanks at its ends", same=True)
def anchors(sheet, text):
    return on_elements(sheet, lambda n, trail: n[2] if n[0] == "a" and not linked(n) else [n])


@cause("emphasis, code, blocks and line breaks in a link without a picture: only their texts are written")
def link_text(sheet, text):
    return on_elements(sheet, lambda n, trail: n[2] if textual(trail) and n[0] != "a" else [n])


@cause("a link without text: what is written of its blocks is the link's text")
def link_without_text(sheet, text):
    def f(n, trail):
        return [(n[0], n[1], [])] if linked(n) and not holds(n, ("img",)) and not shown.text_below(n) else [n]
    return on_elements(sheet, f)


@cause("blocks in a link with a picture are left out")
def blocks_in_link(sheet, text):
    def f(n, trail):
        return [b" "] + n[2] + [b" "] if n[0] in BLOCKS | set(PARTS) and any(linked(t) and holds(t, ("img",)) for t in trail) else [n]
    return on_elements(sheet, f)


@cause("blanks at the ends of a link go", same=True)
def blanks_in_link(sheet, text):
    drop, before, after = set(), {}, {}
    for p, run, i, j in spans(sheet, lambda n: linked(n)):
        for tokens, place in ((run[i:j], before), (run[i:j][::-1], after)):
            white = list(itertools.takewhile(lambda t: t.what in WHITES, tokens))
            drop |= {(t.path, t.place) for t in white}
            if white:
                place[p] = [b" "]
    return edited(sheet, drop, before, after)


@cause("a link in a link: links hold no links")
def link_in_link(sheet, text):
    return on_elements(sheet, lambda n, trail: n[2] if linked(n) and any(map(linked, trail)) else [n])


@cause("a picture without a source is left out")
def no_source(sheet, text):
    return on_elements(sheet, lambda n, trail: [] if n[0] == "img" and not (attribute(n[1], b"src") or b"").strip() else [n])


@cause("a title behind an empty destination is read as the destination")
def empty_destination(sheet, text):
    full = lambda n: [(k, b"u" if k in (b"href", b"src") and not v and attribute(n[1], b"title") is not None else v) for k, v in n[1]]
    return on_elements(sheet, lambda n, trail: [(n[0], full(n), n[2])])


@cause("white bytes in a title become single blanks, and none first in a title that holds a quote mark")
def white_title(sheet, text):
    def single(v):
        v = re.sub(rb"[\t\n\x0c\r ]+", b" ", v)
        return v.lstrip(b" ") if b'"' in v else v
    return on_elements(sheet, lambda n, trail: [(n[0], [(k, single(v) if k == b"title" else v) for k, v in n[1]], n[2])])


@cause("a title that ends with a backslash: cmark-gfm looks for its end at a later quote mark; CommonMark's is the first unescaped one")
def title_end(sheet, text):
    cut = lambda v: v.rstrip(b"\\")
    return on_elements(sheet, lambda n, trail: [(n[0], [(k, cut(v) if k == b"title" else v) for k, v in n[1]], n[2])])


@cause("code of several lines is written as a block", same=True)
def code_lines(sheet, text):
    inside = lambda trail: any(n[0] == "code" for n in trail) and not any(n[0] == "pre" for n in trail)
    return on_texts(sheet, lambda t, trail: t.replace(b"\n", b" ") if inside(trail) else t)


@cause("emphasis that ends with code behind emphasis that begins with it: once they are joined, the backticks are one run", same=True)
def code_in_emphasis(sheet, text):
    is_code = lambda n: not isinstance(n, bytes) and n[0] == "code"

    def joined(kids):
        out = []
        for n in kids:
            if not isinstance(n, bytes):
                n = (n[0], n[1], joined(n[2]))
                one = out[-1] if out and not isinstance(out[-1], bytes) else None
                if one and n[2] and one[2] and n[0] in EMPHASIS and EMPHASIS.get(one[0]) == EMPHASIS[n[0]] \
                        and is_code(one[2][-1]) and is_code(n[2][0]):
                    code = el("code", *(one[2][-1][2] + n[2][0][2]))
                    out[-1] = (one[0], one[1], one[2][:-1] + [code] + n[2][1:])
                    continue
            out.append(n)
        return out
    return joined(sheet)


@cause("code behind code: a blank keeps their backticks apart")
def code_code(sheet, text):
    found = [(p, id(run), i, j) for p, run, i, j in spans(sheet, lambda n: n[0] == "code")]
    joined = [(p, q) for p, q in meeting(sheet) if kind(sheet, p) == kind(sheet, q)]
    apart = lambda p, q: not any(p[:len(a)] == a and q[:len(b)] == b for a, b in joined)
    return edited(sheet, (), {q: [b" "] for p, run, _, j in found for q, other, i, _ in found if run == other and i == j and apart(p, q)})


@cause("code behind a text that ends with a backtick: a blank keeps them apart")
def backtick_code(sheet, text):
    drop = set()
    for p, run, i, j in spans(sheet, lambda n: n[0] == "code"):
        for t in itertools.takewhile(lambda t: t.what == "`" and "code" not in t.styles, run[:i][::-1]):
            drop.add((t.path, t.place))
    return edited(sheet, drop)


@cause("blocks in emphasis: the marks stand outside the blocks", same=True)
def blocks_in_emphasis(sheet, text):
    def inside(kids, name):
        out = []
        for n in kids:
            if not isinstance(n, bytes) and holds(n, BLOCKS | {"li", "tr", "th", "td"}) and n[0] != "pre":
                out.append((n[0], n[1], inside(n[2], name)))
            else:
                out.append(n if not isinstance(n, bytes) and n[0] in ("pre", "hr") else (name, [], [n]))
        return out

    def f(n, trail):
        return inside(n[2], n[0]) if n[0] in EMPHASIS and holds(n, BLOCKS) else [n]
    return on_elements(sheet, f)


@cause("a negative list number becomes 0")
def negative(sheet, text):
    return on_numbers(sheet, lambda n: 0 if n < 0 else n)


@cause("a list number over 999,999,999 becomes that")
def large(sheet, text):
    return on_numbers(sheet, lambda n: min(n, 999999999))


def on_numbers(sheet, f):
    def value(key, v):
        n = shown.integer(v) if key in (b"start", b"value") else None
        return v if n is None or f(n) == n else b"%d" % f(n)
    return on_elements(sheet, lambda n, trail: [(n[0], [(k, value(k, v)) for k, v in n[1]], n[2])])


@cause("a later `value`: CommonMark counts on from the first number")
def later_value(sheet, text):
    def f(n, trail):
        return [(n[0], n[1], n[2][:1] + [(li[0], [], li[2]) for li in n[2][1:]])] if n[0] == "ol" else [n]
    return on_elements(sheet, f)


# -- line breaks

@cause("a line break at the beginning of a block, or a second one at its end, is left out")
def breaks_at_ends(sheet, text):
    drop = set()
    for run in runs(sheet):
        for tokens in (run, run[::-1]):
            for t in itertools.takewhile(lambda t: t.what == BREAK or t.what in WHITES, tokens):
                if t.what == BREAK:
                    drop.add((t.path, None))
    return edited(sheet, drop)


@cause("line breaks behind one another: a blank line stands between them")
def breaks_together(sheet, text):
    drop = set()
    for run in runs(sheet):
        last = None
        for t in run:
            if t.what == BREAK and last == BREAK:
                drop.add((t.path, None))
            last = last if t.what in WHITES else t.what
    return edited(sheet, drop)


@cause("a line break in a heading ends it")
def break_in_heading(sheet, text):
    return rewrite(sheet, lambda n, trail: [b" "] if not isinstance(n, bytes) and n[0] == "br" and any(t[0] in HEADINGS for t in trail)
                   else [n])


# -- emphasis

def punctuation(c):
    return c is not None and (c in "!\"#$%&'()*+,-./:;<=>?@[\\]^_`{|}~" or unicodedata.category(c).startswith("P"))


def beside(token, styles, marks):
    """the character that a token puts beside a mark of emphasis, where the styles round the mark are given"""
    if token is None or token.what in WHITES or token.what == BREAK:
        return " "
    if token.what == IMAGE:
        return marks[0]
    if "code" in token.styles - styles:
        return "`"
    return marks[1] if any(isinstance(s, tuple) for s in token.styles - styles) else token.what


def sides(sheet):
    """for each emphasis element: its path and the characters before it, first and last in it and behind it"""
    for p, run, i, j in emphases(sheet):
        outer = frozenset().union(*[shown.style_of(at(sheet, p[:n])) for n in range(1, len(p)) if shown_style(at(sheet, p[:n]))])
        inner = outer | shown.style_of(at(sheet, p))
        inside = [t for t in run[i:j] if t.what not in WHITES]
        yield (p, beside(run[i - 1] if i else None, outer, "))"), beside(inside[0], inner, "!["), beside(inside[-1], inner, "))"),
               beside(run[j] if j < len(run) else None, outer, "!["))


def shown_style(node):
    return node[0] in INLINES


@cause("emphasis beside a letter that begins or ends with punctuation: the marks are no delimiters")
def punctuation_in_emphasis(sheet, text):
    before, after = {}, {}
    letter = lambda c: not punctuation(c) and c not in WHITES and c not in UNICODE_BLANKS
    for p, outer, first, last, behind in sides(sheet):
        if letter(outer) and punctuation(first):
            before[p] = [b" "]
        if letter(behind) and punctuation(last):
            after[p] = [b" "]
    return edited(sheet, (), before, after)


@cause("emphasis of White_Space alone, which has VT and the blanks outside ASCII, is written without marks")
def white_emphasis(sheet, text):
    def f(n, trail):
        return n[2] if n[0] in EMPHASIS and not holds(n, BLOCKS | {"img"}) and not shown.text_below(n).decode().strip() else [n]
    return on_elements(sheet, f)


@cause("a line break at the ends of emphasis: the marks are no delimiters", same=True)
def break_in_emphasis(sheet, text):
    drop, before, after = set(), {}, {}
    for p, run, i, j in emphases(sheet):
        for tokens, place in ((run[i:j], before), (run[i:j][::-1], after)):
            for t in itertools.takewhile(lambda t: t.what in WHITES or t.what == BREAK, tokens):
                if t.what == BREAK and (t.path, None) not in drop:
                    drop.add((t.path, None))
                    place.setdefault(p, []).append(el("br"))
    return edited(sheet, drop, before, after)


@cause("emphasis that begins or ends with a blank outside ASCII: the marks are no delimiters")
def blank_in_emphasis(sheet, text):
    drop = set()
    for p, run, i, j in emphases(sheet):
        for tokens in (run[i:j], run[i:j][::-1]):
            for t in itertools.takewhile(lambda t: t.what in WHITES or t.what in UNICODE_BLANKS, tokens):
                drop |= {(t.path, t.place)} if t.what in UNICODE_BLANKS else set()
    return edited(sheet, drop)


@cause("emphasis behind emphasis of the same kind that ends with an escaped star: the marks are not taken out")
def star_emphasis(sheet, text):
    ends = lambda p: shown.text_below(at(sheet, p)).endswith(b"*")
    return edited(sheet, (), {q: [b" "] for p, q in meeting(sheet) if kind(sheet, p) == kind(sheet, q) and ends(p)})


@cause("emphasis behind emphasis that ends with emphasis of the same kind: the mark taken out is the inner one's")
def inner_emphasis(sheet, text):
    before, found = {}, [(p, id(run), i, j, run) for p, run, i, j in emphases(sheet)]
    for p, run, _, j, tokens in found:
        outer = [q for q, other, _, end, _ in found if other == run and end == j and q == p[:len(q)] and q != p]
        for q, other, i, _, _ in found:
            if outer and other == run and i >= j and all(t.what in WHITES for t in tokens[j:i]) and kind(sheet, p) == kind(sheet, q):
                before[q] = [b"x"]
    return edited(sheet, (), before)


@cause("emphasis at both ends of emphasis, with letters between them: the marks are paired otherwise")
def emphasis_at_ends(sheet, text):
    before, after, found = {}, {}, [(p, id(run), i, j) for p, run, i, j in emphases(sheet)]
    for p, run, i, j in found:
        inner = [(q, k, m) for q, other, k, m in found if other == run and q[:len(p)] == p and q != p]
        first, last = [q for q, k, _ in inner if k == i], [q for q, _, m in inner if m == j]
        if first and last and first != last:
            after.update({q: [b" "] for q in first})
            before.update({q: [b" "] for q in last})
    return edited(sheet, (), before, after)


@cause("emphasis behind emphasis of the other kind with nothing between them: their marks are one run")
def emphasis_emphasis(sheet, text):
    return edited(sheet, (), {q: [b" "] for p, q in meeting(sheet) if kind(sheet, p) != kind(sheet, q)})


# -- lists

@cause("an item that begins with a list: a blank line follows the marker")
def item_list(sheet, text):
    def f(n, trail):
        blocks = shown.flow(n[2], frozenset()) if n[0] == "li" else []
        return [(n[0], n[1], [b"x"] + n[2])] if blocks and blocks[0][0] == "list" else [n]
    return on_elements(sheet, f)


@cause("a heading of White_Space alone in an item is written as text")
def empty_heading(sheet, text):
    def f(n, trail):
        white = n[0] in HEADINGS and not holds(n, ("img", "br")) and not shown.text_below(n).decode().strip()
        return [el("p", *n[2])] if white and any(t[0] == "li" for t in trail) else [n]
    return on_elements(sheet, f)


@cause("a block that shows nothing first in an item: a blank line follows the marker", same=True)
def empty_block(sheet, text):
    def f(n, trail):
        if n[0] != "li":
            return [n]
        ends = [k + 1 for k, c in enumerate(n[2]) if not isinstance(c, bytes) and c[0] in PLAIN_BLOCKS and not shown.of_tree(n[2][:k + 1])]
        return [(n[0], n[1], n[2][max(ends, default=0):])]
    return on_elements(sheet, f)


def paragraphs(kids, chosen=lambda before, behind: True):
    """the runs of inline content that show something as paragraphs, where `chosen` by the names of the blocks round them"""
    out, run, last = [], [], None
    for n in kids + [None]:
        if n is not None and (isinstance(n, bytes) or not holds(n, BLOCKS)):
            run.append(n)
            continue
        name = None if n is None else n[0]
        whole = {last, name} <= BLOCKS | {None}
        out += [el("p", *run)] if shown.of_tree(run) and whole and chosen(last, name) else run
        run, last = [], name
        out += [] if n is None else [n]
    return out


@cause("text and a block behind it in an item: no blank line between them", same=True)
def text_block(sheet, text):
    chosen = lambda before, behind: behind is not None and behind not in LISTS
    return on_elements(sheet, lambda n, trail: [(n[0], n[1], paragraphs(n[2], chosen))] if n[0] == "li" else [n])


@cause("text behind a list in an item leaves the item", same=True)
def text_behind_list(sheet, text):
    chosen = lambda before, behind: before in LISTS
    return on_elements(sheet, lambda n, trail: [(n[0], n[1], paragraphs(n[2], chosen))] if n[0] == "li" else [n])


def cells_of(table):
    """the cells of a table as blocks"""
    return [el("div", *cell[2]) for tr in table[2] for cell in tr[2]]


@cause("a table in an item: the cells of a row run together")
def table_in_item(sheet, text):
    return on_elements(sheet, lambda n, trail: cells_of(n) if n[0] == "table" and trail and trail[-1][0] == "li" else [n])


@cause("a `div` in an item with text and blocks, a rule or a table in it: its blocks leave the item", same=True)
def wrapper_in_item(sheet, text):
    def f(n, trail):
        if n[0] != "div" or not any(t[0] == "li" for t in trail) or in_cell(trail):
            return [n]
        kids = [k for k in paragraphs(n[2]) if not blank(k)]
        return kids if kids and all(not isinstance(k, bytes) and k[0] in BLOCKS for k in kids) else [n]
    return on_elements(sheet, f)


@cause("a table without a cell: what stands before it and behind it runs together", same=True)
def empty_table(sheet, text):
    return on_elements(sheet, lambda n, trail: [el("p")] if n[0] == "table" and blank(n) else [n])


@cause("two lists of one kind behind one another are read as one list")
def lists_together(sheet, text):
    last = [None]

    def go(kids):
        out = []
        for n in kids:
            if isinstance(n, bytes) or n[0] not in BLOCKS | set(PARTS):
                last[0] = last[0] if blank(n) else None
                out.append((n[0], n[1], go(n[2])) if not isinstance(n, bytes) and holds(n, LISTS) else n)
                continue
            if n[0] in LISTS and last[0] == n[0]:
                out.append(el("p", b"x"))
            if n[0] in PARTS or not blank(n) and n[0] != "div":
                last[0] = None
            out.append((n[0], n[1], go(n[2])))
            last[0] = n[0] if n[0] in LISTS and not blank(n) else None if n[0] in PARTS else last[0]
        return out
    return go(sheet)


# -- tables

def in_cell(trail):
    return any(t[0] in ("th", "td") for t in trail)


@cause("a heading in a cell is text with its marks")
def heading_in_cell(sheet, text):
    return on_elements(sheet, lambda n, trail: [el("p", *n[2])] if n[0] in HEADINGS and in_cell(trail) else [n])


@cause("a list in a cell is text with its markers")
def list_in_cell(sheet, text):
    return on_elements(sheet, lambda n, trail: [el("div", *li[2]) for li in n[2]] if n[0] in LISTS and in_cell(trail) else [n])


@cause("a rule in a cell is text")
def rule_in_cell(sheet, text):
    return on_elements(sheet, lambda n, trail: [el("p", b"x")] if n[0] == "hr" and in_cell(trail) else [n])


@cause("a code block in a cell: its lines end the row")
def code_in_cell(sheet, text):
    return on_elements(sheet, lambda n, trail: [el("p", b"x")] if n[0] == "pre" and in_cell(trail) else [n])


def lines(kids):
    """the lines that show something, each a list of nodes, with a line for each paragraph"""
    out = [[]]
    for n in kids:
        if not isinstance(n, bytes) and n[0] in ("p", "div"):
            out += lines(n[2]) + [[]]
        else:
            out[-1].append(n)
    return [line for line in out if shown.of_tree(line) or any(holds(n, BLOCKS) for n in line)]


@cause("paragraphs in a cell are lines of one paragraph")
def paragraphs_in_cell(sheet, text):
    def f(n, trail):
        if n[0] not in ("th", "td") or not holds(n, BLOCKS):
            return [n]
        return [(n[0], n[1], [k for j, line in enumerate(lines(n[2])) for k in ([el("br")] if j else []) + line])]
    return on_elements(sheet, f)


@cause("a table in a table: the outer one is written as blocks")
def table_in_table(sheet, text):
    return on_elements(sheet, lambda n, trail: cells_of(n) if n[0] == "table" and in_cell(trail) else [n])


@cause("code or a destination in a cell: a backslash before a pipe goes")
def pipe_in_code(sheet, text):
    cut = lambda v: re.sub(rb"\\+\|", b"|", v)

    def f(n, trail):
        attrs = [(k, cut(v) if k in (b"href", b"src") else v) for k, v in n[1]]
        whole = shown.text_below(n)
        return [(n[0], attrs, [cut(whole)] if n[0] == "code" and cut(whole) != whole else n[2])] if in_cell(trail) else [n]
    return on_elements(sheet, f)


@cause("rows with different numbers of cells")
def ragged(sheet, text):
    def f(n, trail):
        if n[0] != "table":
            return [n]
        most = max([len(tr[2]) for tr in n[2]] or [0])
        rows = [tr for tr in n[2] if tr[2]]
        return [(n[0], n[1], [(tr[0], tr[1], tr[2] + [el(tr[2][0][0], b"x")] * (most - len(tr[2]))) for tr in rows])]
    return on_elements(sheet, f)


@cause("U+000B at a cell's beginning is trimmed by cmark-gfm")
def vt_in_cell(sheet, text):
    drop = set()
    for run in runs(sheet):
        if any(at(sheet, run[0].path[:n])[0] in ("th", "td") for n in range(1, len(run[0].path))):
            drop |= {(t.path, t.place) for t in itertools.takewhile(lambda t: t.what in WHITES or t.what == "\x0b", run) if t.what == "\x0b"}
    return edited(sheet, drop)


# ---- trees that classes explain that random trees seldom meet

def link(*kids, attrs=()):
    return el("a", *kids, attrs=[(b"href", b"u")] + list(attrs))


def picture(*attrs):
    return el("img", attrs=[(b"src", b"v")] + list(attrs))


EXAMPLES = [
    [el("p", picture((b"title", b"a\\")), b" \"x\"")],
    [el("b", el("code", b"x")), el("b", el("code", b"y"))],
    [el("p", el("i", b" ", b" c"))],
    [el("p", el("b", b"a ", el("i", b" ")))],
    [el("p", el("b", b"a"), el("i", b"a", el("b", b"a")))],
    [el("p", el("i", b"a", el("b", b"a")), el("b", b"a"))],
    [el("i", b"a*"), el("i", b"b")],
    [el("i", el("b", b"x"), b"y", el("b", b"z"))],
    [el("p", b"`", el("code", b"x"))],
    [link(el("hr"))],
    [link(picture(), el("p", b"x"))],
    [el("p", b"a", el("br"), el("br"), b"b")],
    [el("ul", el("li", b"x", el("ul", el("li", b"y")), b"z"))],
    [b"x", el("table"), b"y"],
    [el("ul", el("li", b"x")), el("ul", el("li", b"y"))],
    [el("table", el("tr", el("th", el("code", b"\\|"))))],
    [el("p", link(link(b"x", attrs=[(b"title", b"t")])))],
]
