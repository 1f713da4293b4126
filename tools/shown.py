"""What a reader sees: the structure of a tree as HTML shows it, and the structure of a Markdown text as cmark-gfm reads it.

`of_tree(sheet)` is made from the tree alone, by the rules of HTML with white space collapsed; nothing of the writer is used.
`Reader(path).of_text(text)` has the same form; `path` is the module that loads cmark-gfm with its table extension.

A structure is a list of blocks:

    ("p", tokens)  ("h", level, tokens)  ("pre", text)  ("hr",)  ("list", "ul" or "ol", items)  ("table", headings or None, rows)
    ("html", text)     raw HTML, which only a text can have

An item is (number or None, blocks), a cell a list of blocks. A token is (what, styles): one character, ("br",), ("img", destination,
title, description) or ("html", text), and the styles that it stands in: "strong", "em", "code", ("a", destination, title). A blank has
no style. What shows nothing is left out: a block without tokens, a list without items, a row without cells, one break at a block's end;
rows are as wide as the widest of their table. Blanks at a destination's ends are no part of it (HTML strips a URL).
Not in the structure: the language of code, whether a list is loose, `th` in a row that is not the heading.

A tree is as in trees.py: a text (bytes) or an element (name, attributes, children).
"""
import ctypes
import re

import cmark
from trees import attribute

WHITE = "\t\n\x0c\r "
HEADINGS = {"h1": 1, "h2": 2, "h3": 3, "h4": 4, "h5": 5, "h6": 6}
BLOCKS = {"p", "ul", "ol", "pre", "hr", "table", "div"} | set(HEADINGS)
EMPHASIS = {"b": "strong", "strong": "strong", "i": "em", "em": "em"}
NONE = frozenset()
BREAK = ("br",)


def collapsed(run):
    """the tokens of a run of inline content: white characters as one blank, none at the ends and beside a break"""
    out = []
    for what, styles in run:
        if what in WHITE if isinstance(what, str) else False:
            if out and out[-1][0] not in (" ", BREAK):
                out.append((" ", NONE))
            continue
        if what == BREAK:
            if out and out[-1][0] == " ":
                out.pop()
            styles = NONE
        out.append((what, styles))
    if out and out[-1][0] == " ":
        out.pop()
    if out and out[-1][0] == BREAK:
        out.pop()
    return out


# ---- the structure of a tree

def text_below(node):
    return node if isinstance(node, bytes) else b"".join(text_below(k) for k in node[2])


def string(value):
    return None if value is None else value.decode()


def of_tree(sheet):
    return flow(sheet, NONE)


def flow(kids, styles):
    out, run = [], []
    flow_into(kids, styles, out, run)
    flush(out, run)
    return out


def flush(out, run):
    tokens = collapsed(run)
    if tokens:
        out.append(("p", tokens))
    del run[:]


def flow_into(kids, styles, out, run):
    for node in kids:
        if isinstance(node, bytes):
            run += [(c, styles) for c in node.decode()]
        elif node[0] in BLOCKS:
            flush(out, run)
            block(node, styles, out)
        elif node[0] == "br":
            run.append((BREAK, NONE))
        elif node[0] == "img":
            run.append((image(node), styles))
        else:
            flow_into(node[2], styles | style_of(node), out, run)


def style_of(node):
    name, attrs, _ = node
    if name in EMPHASIS:
        return {EMPHASIS[name]}
    if name == "code":
        return {"code"}
    href = attribute(attrs, b"href") if name == "a" else None
    return NONE if href is None else {("a", string(href).strip(WHITE), string(attribute(attrs, b"title")) or "")}


def image(node):
    alt = "".join(c for c, _ in collapsed([(c, NONE) for c in string(attribute(node[1], b"alt")) or ""]))
    return ("img", (string(attribute(node[1], b"src")) or "").strip(WHITE), string(attribute(node[1], b"title")) or "", alt)


def block(node, styles, out):
    name, attrs, kids = node
    if name in ("p", "div"):
        out += flow(kids, styles)
    elif name in HEADINGS:
        out += [("h", HEADINGS[name], b[1]) if b[0] == "p" else b for b in flow(kids, styles)]
    elif name == "hr":
        out.append(("hr",))
    elif name == "pre":
        code(text_below(node).decode(), out)
    elif name == "table":
        table([[(c[0], flow(c[2], styles)) for c in tr[2]] for tr in kids], out)
    else:
        items = numbered(node, styles)
        if items:
            out.append(("list", name, items))


def code(text, out):
    if text:
        out.append(("pre", text if text.endswith("\n") else text + "\n"))


def table(rows, out):
    rows = [r for r in rows if r]
    width = max(map(len, rows), default=0)
    rows = [r + [(r[0][0], [])] * (width - len(r)) for r in rows]
    head = None
    if rows and all(name == "th" for name, _ in rows[0]):
        head = [blocks for _, blocks in rows.pop(0)]
    rows = [[blocks for _, blocks in r] for r in rows]
    if rows or head:
        out.append(("table", head if head and any(head) else None, rows))


def integer(value):
    """the HTML Standard's rules for parsing integers"""
    m = re.match(rb"[\t\n\x0c\r ]*([+-]?[0-9]+)", value or b"")
    return None if m is None else int(m.group(1))


def numbered(node, styles):
    name, attrs, kids = node
    start = integer(attribute(attrs, b"start"))
    number, out = 1 if start is None else start, []
    for li in kids:
        value = integer(attribute(li[1], b"value"))
        number = number if value is None else value
        out.append((number if name == "ol" else None, flow(li[2], styles)))
        number += 1
    return out


# ---- the structure of a Markdown text

class Reader:
    def __init__(self, path):
        self.m = cmark.load(path)
        self.c = self.m._c
        for f in ("cmark_node_get_url", "cmark_node_get_title"):
            getattr(self.c, f).restype = ctypes.c_char_p
            getattr(self.c, f).argtypes = [ctypes.c_void_p]

    def of_text(self, text):
        with cmark.document(self.m, text) as root:
            return self.blocks(root)

    def literal(self, n):
        return (self.c.cmark_node_get_literal(n) or b"").decode()

    def blocks(self, parent):
        out = []
        for n in self.m.kids(parent):
            self.block(n, self.m.ty(n), out)
        return out

    def block(self, n, kind, out):
        if kind in ("paragraph", "heading"):
            tokens = self.tokens(n)
            if tokens:
                out.append(("p", tokens) if kind == "paragraph" else ("h", self.c.cmark_node_get_heading_level(n), tokens))
        elif kind == "code_block":
            code(self.literal(n), out)
        elif kind == "thematic_break":
            out.append(("hr",))
        elif kind == "list":
            ordered = self.c.cmark_node_get_list_type(n) == 2
            first = self.c.cmark_node_get_list_start(n)
            out.append(("list", "ol" if ordered else "ul",
                        [(first + k if ordered else None, self.blocks(li)) for k, li in enumerate(self.m.kids(n))]))
        elif kind == "table":
            rows = [[("th" if k == 0 else "td", self.cell(c)) for c in self.m.kids(r)] for k, r in enumerate(self.m.kids(n))]
            table(rows, out)
        elif kind == "html_block":
            out.append(("html", self.literal(n)))
        else:
            out.append((kind, self.blocks(n)))

    def cell(self, n):
        tokens = self.tokens(n)
        return [("p", tokens)] if tokens else []

    def tokens(self, n):
        run = []
        self.inline(n, NONE, run)
        return collapsed(run)

    def inline(self, parent, styles, run):
        for n in self.m.kids(parent):
            kind = self.m.ty(n)
            if kind == "text":
                run += [(c, styles) for c in self.literal(n)]
            elif kind == "softbreak":
                run.append((" ", NONE))
            elif kind == "linebreak":
                run.append((BREAK, NONE))
            elif kind == "code":
                run += [(c, styles | {"code"}) for c in self.literal(n)]
            elif kind == "html_inline":
                run.append((BREAK, NONE) if self.literal(n) == "<br>" else (("html", self.literal(n)), styles))
            elif kind == "image":
                run.append((("img",) + self.target(n) + (self.plain(n),), styles))
            else:
                style = ("a",) + self.target(n) if kind == "link" else {"emph": "em"}.get(kind, kind)
                self.inline(n, styles | {style}, run)

    def target(self, n):
        return ((self.c.cmark_node_get_url(n) or b"").decode().strip(WHITE), (self.c.cmark_node_get_title(n) or b"").decode())

    def plain(self, n):
        run = []
        self.inline(n, NONE, run)
        return "".join(c if isinstance(c, str) else c[-1] for c, _ in collapsed(run))


def clear(structure):
    """a structure as one line, for people"""
    def tokens(ts):
        out, last = "", NONE
        for what, styles in ts + [("", NONE)]:
            if styles != last:
                out += "".join("</%s>" % name(s) for s in sorted(last - styles, key=str))
                out += "".join("<%s>" % name(s) for s in sorted(styles - last, key=str))
                last = styles
            out += what if isinstance(what, str) else "<%s>" % " ".join(map(repr, what))
        return repr(out)[1:-1]

    def name(style):
        return style if isinstance(style, str) else "a %r" % (style[1:],)

    def one(b):
        if b[0] == "p":
            return "p{%s}" % tokens(b[1])
        if b[0] == "h":
            return "h%d{%s}" % (b[1], tokens(b[2]))
        if b[0] == "list":
            return "%s{%s}" % (b[1], "; ".join("%s%s" % ("" if n is None else "%d: " % n, clear(bs)) for n, bs in b[2]))
        if b[0] == "table":
            rows = [b[1] if b[1] is not None else []] + b[2]
            return "table{%s}" % " / ".join(" | ".join(clear(c) for c in r) for r in rows)
        return "%s{%s}" % (b[0], ", ".join(map(repr, b[1:])))
    return " ".join(one(b) for b in structure) or "nothing"
