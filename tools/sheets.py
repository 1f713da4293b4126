"""Sheets as fields: `field` and `el` make them, `spans` and `nodes_in` look at them; `Gen` makes random ones for the comparisons: general
trees, damaged bytes, skip lists. Written from document 01.
"""
import random

BLOCKS = ["article", "section", "div", "p", "h1", "h2", "h3", "h4", "h5", "h6", "ul", "ol", "dl", "table", "hr"]
INLINES = ["a", "img", "pre", "code", "strong", "b", "em", "i", "br", "li", "tr", "th", "td"]
UNKNOWN = ["span", "x", "main", "h7", "P", "Li", "tbody", "thead", "script", "style", "meta", "head", "bold", "é"]
MARKS = list("\\`*_[]<>|~#-+=!.)(&\"'/:,;%^{}@$?") + ["![", "**", "***", "``", "```", "1.", "12)", "1234567890.", "=", "==", "---"]
WORDS = ["x", "Fit", "010", "1", "7.", "3)", "a|b", "a\\|b", "\\|", "é", "日本", "\u00a0", "\u2003", "\u3000", "\u0085", "\u000b", "\ufeff",
         "\U0001f6a2", "&amp;", "<br>", "\\<br>", "\\\\", "\u0000", "\x7f", "[x]", "(y)", "a!", "!", "#", "##", "x#", "-", "+", ".", ")",
         "\u1680", "\u202f", "\u205f", "\u2028", "\u2029", "language-c", "\u00c2"]
BLANKS = [" ", "  ", "\n", "\t", "\r", "\x0c", "\r\n", " \n ", "\n\n", "   ", "\u00a0", "\x0b"]
NUMBERS = ["", "1", "0", "9", " +007", "-4", "-", "+", "999999999", "1000000000", "00000000000000000001", "12x", "x", " \t3", "\x0b3",
           "99", "100", "999999998", "4294967296", "--1", "+-1", "9999999990", "0x1", "１"]
URLS = ["u", "", "a b", "a(b", "a(b)c", "a)b(", "a&b", "a\"b", "a\\b", "a<b>", "a\nb", "a\rb\\", "\u00a0", "é(", "a\x7f", "()", ")(", "a b\\<>", "\u0000", "Ât"]
TITLES = ["t", "", "a \"q\" b", "\"", " x ", "1. a", "`c`", "a\nb", "\" \"", "  "]
LANGS = ["rust", "", " c++ x", "a$b-_+.#", "é", "\tjs"]
CLASSES = ["language-c", "x language-", "language", "a language-js! b", "language-\u00e9x", ""]
SRCSETS = ["a.png 1x, b.png", " ,", "", "x,,", ", y", "z"]


def field(tag, body):
    return bytes([tag, len(body) >> 8, len(body) & 255]) + body


def as_bytes(s):
    return s if isinstance(s, bytes) else s.encode()


def el(name, *kids, attrs=(), **named):
    """an element; children are fields (bytes) or texts (str), and the names of `named` attributes have `_` for `-`"""
    out = field(1, as_bytes(name))
    for k, v in list(attrs) + [(k.replace("_", "-"), v) for k, v in named.items()]:
        out += field(2, as_bytes(k)) + field(3, as_bytes(v))
    for k in kids:
        out += k if isinstance(k, bytes) else field(4, k.encode())
    return out + field(6, b"")


def spans(sheet):
    """[(place, tag, start, end)] of the fields; one that runs past the end ends there"""
    out, p = [], 0
    while len(sheet) - p >= 3:
        end = min(p + 3 + sheet[p + 1] * 256 + sheet[p + 2], len(sheet))
        out.append((p, sheet[p], p + 3, end))
        p = end
    return out


def nodes_in(sheet):
    """how many nodes, fragment included, where the sheet is whole"""
    return 1 + sum(f[1] in (1, 4, 5) for f in spans(sheet))


class Gen:
    def __init__(self, seed):
        self.r = random.Random(seed)
        self.left = 0

    def text(self):
        r = self.r
        out = []
        if r.random() < .25:
            out.append(r.choice(BLANKS))
        for k in range(r.choice([0, 1, 1, 1, 2, 2, 3])):
            if k:
                out.append(r.choice(BLANKS))
            w = ""
            for _ in range(r.choice([1, 1, 1, 2, 3])):
                w += r.choice(WORDS if r.random() < .6 else MARKS)
            out.append(w)
        if r.random() < .25:
            out.append(r.choice(BLANKS))
        return "".join(out).encode()

    def attrs(self, name):
        r = self.r
        out = []

        def add(key, values, chance):
            if r.random() < chance:
                out.append((key, r.choice(values)))
        if name == "a":
            add("href", URLS, .8)
            add("title", TITLES, .4)
        elif name == "img":
            add("src", URLS + [" ", "\u2003"], .7)
            add("srcset", SRCSETS, .4)
            add("data-src", URLS + [" "], .4)
            add("alt", TITLES + URLS, .5)
            add("title", TITLES, .4)
        elif name == "ol":
            add("start", NUMBERS, .7)
        elif name == "li":
            add("value", NUMBERS, .3)
        elif name == "code":
            add("class", CLASSES, .4)
        add("data-lang", LANGS, .1)
        add("data-language", LANGS, .1)
        if r.random() < .1:
            out.append((r.choice(["id", "class", "href", "start", "é"]), r.choice(WORDS)))
        if out and r.random() < .15:
            out.append((r.choice(out)[0], r.choice(URLS)))
        r.shuffle(out)
        return out

    def element(self, name, kids):
        return el(name, kids, attrs=self.attrs(name))

    def leaf(self):
        r = self.r
        self.left -= 1
        x = r.random()
        if x < .85:
            return field(4, self.text())
        if x < .95:
            return field(5, self.text())
        return field(4, r.choice(BLANKS).encode() if r.random() < .7 else b"")

    def nodes(self, depth, n):
        return b"".join(self.node(depth) for _ in range(n))

    def some(self, depth, most=3):
        return self.nodes(depth, self.r.randint(0, most))

    def node(self, depth):
        r = self.r
        if self.left <= 0 or depth <= 0 or r.random() < .35:
            return self.leaf()
        self.left -= 1
        x = r.random()
        if x < .16:
            return self.list(depth)
        if x < .30:
            return self.table(depth)
        if x < .36:
            return self.element("code", self.code(depth))
        if x < .42:
            return self.element("a", self.some(depth - 1, 2))
        if x < .60:
            return self.element(r.choice(["b", "i", "em", "strong"]), self.some(depth - 1))
        name = r.choice(BLOCKS if r.random() < .55 else INLINES if r.random() < .75 else UNKNOWN)
        return self.element(name, self.some(depth - 1))

    def code(self, depth):
        r = self.r
        if r.random() < .5:
            return field(4, r.choice(["`", " `x` ", " a ", "\n a\t\n", "a\nb", "  ", "x``y", "", "\u2003\n", " \n", "a\n\u2003b"]).encode())
        return self.some(depth - 1)

    def list(self, depth):
        r = self.r
        out = b""
        for _ in range(r.randint(0, 3)):
            x = r.random()
            self.left -= 1
            if x < .45:
                out += self.element("li", self.some(depth - 1))
            elif x < .8:
                out += self.element("li", self.item(depth - 1))
            else:
                out += self.node(depth - 1)
        return self.element(r.choice(["ul", "ol"]), out)

    def item(self, depth):
        """an item with blocks"""
        r = self.r
        out = b""
        for _ in range(r.randint(1, 4)):
            x = r.random()
            self.left -= 1
            if x < .25:
                out += self.element("pre", field(4, r.choice(["a", "a\n\nb\n", "", "\n", "```", "x\u2003\n", "é"]).encode()))
            elif x < .4:
                out += self.element("hr", b"" if r.random() < .8 else self.leaf())
            elif x < .6:
                out += self.element(r.choice(["p", "h2", "h5", "table", "dl"]), self.some(depth - 1, 2))
            elif x < .72:
                out += self.element(r.choice(["div", "section", "article"]), self.wrapped(depth - 1))
            elif x < .8:
                out += self.list(depth - 1) if depth > 0 else self.leaf()
            else:
                out += self.node(depth - 1)
        return out

    def wrapped(self, depth):
        r = self.r
        out = b""
        for _ in range(r.randint(0, 3)):
            x = r.random()
            if x < .5:
                out += self.element(r.choice(["p", "pre", "h3", "div"]), self.some(depth - 1, 1))
            elif x < .7:
                out += field(4, r.choice([" ", "\n", ""]).encode())
            elif x < .8:
                out += field(5, b"c")
            else:
                out += self.node(depth - 1)
        return out

    def table(self, depth):
        r = self.r
        width = r.randint(0, 3)
        out = b""
        for k in range(r.randint(0, 3)):
            row = b""
            for _ in range(width if r.random() < .85 else r.randint(0, 3)):
                self.left -= 1
                name = "th" if r.random() < (.8 if k == 0 else .15) else "td"
                row += self.element(name, self.some(depth - 1, 2) if r.random() < .6 else self.leaf())
                if r.random() < .1:
                    row += self.leaf()
            tr = self.element("tr", row)
            if r.random() < .2:
                tr = self.element(r.choice(["tbody", "thead", "div", "script"]), tr)
            out += tr
            if r.random() < .1:
                out += self.node(depth - 1)
        return self.element("table", out)

    def sheet(self):
        if self.r.random() < .6:
            return self.scene() + self.pick(b"", b"", self.scene())
        self.left = self.r.choice([2, 4, 6, 8, 12])
        return self.nodes(self.r.choice([1, 2, 3, 4, 5]), self.r.choice([1, 1, 2, 3]))

    # ---- scenes: trees that lead to a branch that random trees rarely meet

    def pick(self, *options):
        return self.r.choice(options)

    def inline(self):
        return self.pick(field(4, self.text()), el("b", "B"), el("br"), el("code", "c"), el("span", "s"), field(5, b"k"), b"")

    def digits(self):
        """digits and a point behind them in another text"""
        start = self.pick("1", "12", "x 1", "123456789", "1234567890", " 7", "a\n3", "- 4", "")
        point = el(self.pick("span", "i", "p"), self.pick(".", ")", ". a", ") ", ".a", ","))
        return el(self.pick("p", "li", "div", "td"), start, point) if self.r.random() < .5 else self.list_of(start, point)

    def bang(self):
        link = el("a", self.pick("x", ""), href=self.pick("u", "(", "a b"))
        linked = el(self.pick("b", "i", "span"), link)
        return self.pick(field(4, b"Wow!"), field(4, b"!"), el("b", "a!")) + self.pick(link, linked, el("b", "[x", link))

    def list_of(self, *kids):
        attrs = {"start": self.pick(*NUMBERS)} if self.r.random() < .5 else {}
        item = {"value": self.pick(*NUMBERS)} if self.r.random() < .3 else {}
        return el(self.pick("ul", "ol"), el("li", *kids, **item), self.pick(b"", el("li", "z"), self.leaf()), **attrs)

    def nested_list(self):
        inner = self.list_of(self.pick("A", " ", el("b"), field(5, b"c"), self.list_of("q")), self.inline())
        return self.list_of(self.inline(), self.pick("A", "A ", "", el("p", "P"), el("b", "B")), inner, self.inline())

    def emphasis(self):
        a, b = self.pick("b", "strong", "i", "em"), self.pick("b", "strong", "i", "em")
        between = self.pick(b"", field(4, b" "), field(4, b"\n"), field(4, b"  "), field(4, b"x"), field(5, b"c"))
        one = el(a, self.pick("A", " A", "A ", "\\", "*", "A\\", "\u2003", "", " ", el(b, "n")))
        return one + between + el(b, self.pick("B", " B ", "[", "\u00a0", el(a, "m"), el("a", "l", href="u")))

    def picture(self):
        attrs = {k: v for k, v in (("src", self.pick("s", "", " ", "\u3000")), ("srcset", self.pick(*SRCSETS)), ("data_src", self.pick("d", " ")),
                                   ("alt", self.pick(*TITLES)), ("title", self.pick(*TITLES))) if self.r.random() < .5}
        return el("img", **attrs)

    def linked_picture(self):
        inside = [self.pick(self.picture(), el("br"), el("p", "x"), el("li", "y"), self.list_of("z"), el("pre", "a  b\n`c`"), el("pre"),
                            el("table", el("tr", el("td", "1"), el("td", "2"))), el("code", "a\nb"), el("h2", "h #"),
                            field(4, self.text()), el("hr"), el("b", "b")) for _ in range(self.r.randint(1, 4))]
        attrs = {"href": self.pick(*URLS)}
        if self.r.random() < .4:
            attrs["title"] = self.pick(*TITLES)
        return el("a", *(inside + [self.picture()]), **attrs)

    def code_block(self):
        code = el("code", self.pick("x", "a\nb", "```", "`"), **self.pick({"class": self.pick(*CLASSES)}, {"class": self.pick(*CLASSES)}, {}))
        lang = self.pick({}, {}, {"data_lang": self.pick(*LANGS)}, {"data_language": self.pick(*LANGS), "data_lang": "z"})
        pre = el("pre", self.pick("", "t", "\n"), code, **self.pick({}, lang))
        for _ in range(self.r.randint(0, 4)):
            pre = el(self.pick("div", "b", "p", "section"), pre, **self.pick({}, {}, lang))
        return pre

    def code_spans(self):
        return b"".join(self.pick(el("code", self.pick("x", "`", "``a", " a ", " ", "", "a ", "\n a \n", "\t\n", "a\u2003\nb", "\u00a0a\nb"),
                                          self.pick(b"", el("br"), el("br") + el("br"), el("script", "s"), el("b", " y"), field(5, b"c"))),
                                  self.inline()) for _ in range(self.r.randint(1, 3)))

    def stale_cut(self):
        """an item whose start is stale behind a trim of the whole text, and a code block behind it"""
        anchor = el("a", self.pick("\u00e9", "x", "\u65e5", "xyz"))
        blanks = field(4, self.pick("\u3000\u3000", "\u00a0\u00a0", "\u2003", "\u3000x", " ", "\u2003\u3000\u00a0").encode())
        item = el("li", anchor, blanks, el("pre", self.pick("q", "q\n\nr", "")), self.pick(b"", el("hr"), el("p", "e")))
        return self.list_of(self.pick("", "o"), el(self.pick("b", "i", "span", "div"), el(self.pick("ul", "ol"), item)))

    def cell_breaks(self):
        cell = [self.pick("a", "\\", "a ", "|", "\\|", "x|y", el("br"), el("p", "p"), el("ul", el("li", "i")), el("hr"), el("h3", "h #"),
                          el("pre", "a|b"), self.list_of("l", el("p", "m")), el("ol", el("li", el("hr"), "k", el("hr"), "j")))
                for _ in range(self.r.randint(0, 3))]
        return el("table", el("tr", el(self.pick("th", "td"), *cell), el(self.pick("th", "td"), "b")),
                       self.pick(b"", el("tr", el("td", *cell[:1]), el("td", *cell[1:])), el("tr"), el("tr", el("td", "1"))))

    def item_blocks(self):
        kids = [self.pick(el("p", "p"), el("pre", "a\n\nb"), el("hr"), el("h2", "h #"), field(4, self.text()), field(4, b" "), self.list_of("n"),
                          el("div", el("p", "w"), " ", el("pre", "v")), el("div", "t"), el("script", "s"), field(5, b"c"), el("br"),
                          el("table", el("tr", el("td", "c"))), el("b", "e"), el("a", "k")) for _ in range(self.r.randint(1, 5))]
        return self.list_of(*kids)

    def scene(self):
        made = self.pick(self.digits, self.bang, self.nested_list, self.emphasis, self.picture, self.linked_picture, self.code_block, self.code_spans,
                         self.stale_cut, self.cell_breaks, self.item_blocks)()
        if self.r.random() < .3:
            made = self.pick(b"", field(4, self.text())) + made + self.pick(b"", self.leaf())
        for _ in range(self.pick(0, 0, 0, 1, 1, 2)):
            made = self.pick(lambda: el(self.pick("div", "b", "i", "span", "p", "h1", "a"), made), lambda: self.list_of(made), lambda: el(
                "table", el("tr", el("td", made), el("td", "x"))), lambda: el("a", made, href="u"))()
        return made

    def skips(self):
        """None is the default list; bytes are a run of fields"""
        r = self.r
        if r.random() < .5:
            return None
        names = [r.choice(BLOCKS + INLINES + UNKNOWN) for _ in range(r.choice([0, 1, 1, 2, 3]))]
        return b"".join(field(7, n.encode()) for n in names)

    def damaged(self):
        """(sheet, start, skips) of which some question may say no"""
        r = self.r
        s = bytearray(self.sheet())
        skips = self.skips()
        start = 0
        x = r.random()
        if x < .45:
            for _ in range(r.randint(1, 2)):
                if s:
                    k = r.randrange(len(s))
                    y = r.random()
                    if y < .5:
                        s[k] = r.choice([0, 1, 2, 3, 4, 5, 6, 7, 65, 128, 0xC0, 0xE2, 0xF5, 255, r.randrange(256)])
                    elif y < .75:
                        del s[k]
                    else:
                        s.insert(k, r.randrange(256))
        elif x < .6:
            s = s[:r.randrange(len(s) + 1)]
        elif x < .75:
            parts = [field(r.choice([1, 2, 3, 4, 5, 6]), r.choice([b"", b"p", b"blockquote", b"\xed\xa0\x80", b"\xf4\x90\x80\x80", b"\xc3\xa9",
                     b"\xe0\x9f\x80", b"\xf0\x8f\x80\x80", b"\xc1\x80", b"\xf4\x8f\xbf\xbf", b"\xe2\x80"])) for _ in range(r.randint(0, 4))]
            s = bytearray(b"".join(parts))
        elif x < .8:
            n = r.choice([99, 100, 101, 102])
            s = bytearray(field(1, b"b") * n + field(6, b"") * n)
        elif x < .85:
            s += field(1, b"blockquote") + field(6, b"")
        elif x < .92:
            start = r.choice([0, 1, 2, 5, 100, 65535])
        else:
            skips = r.choice([b"\x07\0\0", field(7, b"p") * 16, field(7, b"p") * 17, field(7, b"x" * 64), field(7, b"x" * 65), b"\x07\0", field(1, b"p"),
                              field(7, b"\xff"), field(7, b"p") + b"\x07\0\2a"])
        return bytes(s), start, skips
