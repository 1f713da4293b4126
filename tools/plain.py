"""Random plain sheets and their lists, written from document 01 ("Plain sheets and their reading") and from no definition, and
three comparisons with them. Each prints its seed and its counts, and ends with 1 where something differs.

    python3 tools/plain.py antt --sheets 10000
        the definitions, evaluated in antt: `plain` holds for every random sheet and every sheet of the edges, for no sheet that
        breaks a sentence of document 01, and for a sheet changed at random exactly if `is_plain` below says so; `sheet_list`
        equals the list of this file
    python3 tools/plain.py cmark --sheets 50000 --model ../shared/model --tools ../shared/tools
        the text that the model writes, as cmark-gfm reads it, equals the list of this file
    python3 tools/plain.py reading --sheets 10000
        `read` of the text that the definition writes equals `sheet_list`, in antt

Trees are those of trees.py.
"""
import itertools
import random
import re
import sys

import antt
import command_line
from trees import Comment, attribute, el, encode

BLANKS = ("\x85\xa0\u1680\u2000\u2001\u2002\u2003\u2004\u2005\u2006\u2007\u2008\u2009\u200a\u2028\u2029\u202f\u205f\u3000")
HEADINGS = ("h1", "h2", "h3", "h4", "h5", "h6")
WRAPPERS = ("div", "section", "article")
LARGEST = 999999999
PUNCTUATION = "!\"#$%'()*+,-./:;<=>?@[\\]^_`{|}~"      # every ASCII punctuation but `&`


# ---------------------------------------------------------------- the sheet's list

def words(s):
    """Words part at white bytes."""
    return tuple(w for w in re.split(rb"[\t\n\x0c\r ]+", s) if w)


def list_number(value):
    """white bytes, one optional sign, digits; none without a digit"""
    m = re.match(rb"[\t\n\x0c\r ]*([+-]?)([0-9]+)", value)
    if not m:
        return None
    if m.group(1) == b"-":
        return 0
    digits = m.group(2).lstrip(b"0")
    return LARGEST if len(digits) > 9 else int(digits or b"0")


def own_number(attrs, name):
    value = attribute(attrs, name)
    return None if value is None else list_number(value)


def sheet_list(sheet):
    out = []
    for node in sheet:
        block_list(node, out)
    return out


def block_list(node, out):
    name, attrs, kids = node
    if name in WRAPPERS:
        for k in kids:
            block_list(k, out)
    elif name == "hr":
        out.append(("rule",))
    elif name in HEADINGS:
        out.append(("heading", int(name[1]), words(kids[0])))
    elif name == "p":
        out.append(("words", words(kids[0])))
    elif name == "pre":
        s = kids[0]
        out.append(("fixed", s if not s or s.endswith(b"\n") else s + b"\n"))
    elif name == "table":
        rows = rows_of(node)
        cells = [tuple(words(c[2][0]) for c in row) for row in rows]
        if all(c[0] == "th" for c in rows[0]):
            out.append(("table", cells[0], tuple(cells[1:])))
        else:
            out.append(("table", None, tuple(cells)))
    else:
        items_list(node, 1, out)


def items_list(node, depth, out):
    name, attrs, kids = node
    before = None
    for li in kids:
        number = None
        if name == "ol":
            number = own_number(li[1], b"value")
            if number is None and before is not None:
                number = before + 1
            if number is None:
                number = own_number(attrs, b"start")
            if number is None:
                number = 1
        before = number
        out.append(("item", depth, number, words(li[2][0])))
        for inner in li[2][1:]:
            items_list(inner, depth + 1, out)


def rows_of(table):
    rows = []
    for k in table[2]:
        rows += [k[2]] if k[0] == "tr" else [r[2] for r in k[2]]
    return rows


# ---------------------------------------------------------------- plain, sentence by sentence

def is_element(node):
    return isinstance(node, tuple)


def good_text(node):
    """a word, no NUL, VT or `&`, and, white bytes apart, no blank outside ASCII at either end"""
    if not isinstance(node, bytes) or not words(node) or re.search(rb"[\x00\x0b&]", node):
        return False
    s = node.strip(b"\t\n\x0c\r ").decode()
    return s[0] not in BLANKS and s[-1] not in BLANKS


def one_text(kids):
    return len(kids) == 1 and good_text(kids[0])


def is_plain(sheet):
    return all(is_block(node) for node in sheet)


def is_block(node):
    if not is_element(node):
        return False
    name, attrs, kids = node
    if name in ("ul", "ol"):
        return good_list(node)
    if attrs:
        return False
    if name in WRAPPERS:
        return is_plain(kids)
    if name == "p" or name in HEADINGS:
        return one_text(kids)
    if name == "hr":
        return not kids
    if name == "pre":
        return len(kids) == 1 and isinstance(kids[0], bytes) and b"\0" not in kids[0] and b"\r" not in kids[0]
    return name == "table" and good_table(kids)


def good_row(node):
    return (is_element(node) and node[0] == "tr" and not node[1]
            and all(is_element(c) and c[0] in ("th", "td") and not c[1] and one_text(c[2]) for c in node[2]))


def good_table(kids):
    rows = []
    for k in kids:
        if is_element(k) and k[0] in ("thead", "tbody") and not k[1]:
            rows += k[2]
        else:
            rows.append(k)
    return all(good_row(r) for r in rows) and len({len(r[2]) for r in rows}) == 1 and len(rows[0][2]) > 0


def good_list(node):
    name, attrs, kids = node
    if name not in ("ul", "ol") or not kids or any(key != b"start" or name == "ul" for key, _ in attrs):
        return False
    before = None
    for li in kids:
        if not is_element(li) or li[0] != "li" or any(key != b"value" for key, _ in li[1]):
            return False
        inside = li[2]
        if not inside or not good_text(inside[0]) or not all(is_element(k) and good_list(k) for k in inside[1:]):
            return False
        if name == "ol":
            number = own_number(li[1], b"value")
            if number is None and before is not None:
                number = before + 1
                if number > LARGEST:
                    return False
            if number is None:
                number = own_number(attrs, b"start")
            before = 1 if number is None else number
    return True


# ---------------------------------------------------------------- random plain sheets

SEPARATORS = [b" ", b" ", b" ", b"  ", b"\t", b"\n", b"\r", b"\r\n", b"\x0c", b" \n ", b"\t \x0c", b"    ", b"\n\n", b" \t\r\n\x0c "]
CATCHES = [
    "-", "+", "*", "_", "#", ">", "=", "~", "`", "|", "\\", "!", ".", ")", "(", "[", "]", "<", ":", "--", "---", "- - -", "***", "* * *",
    "___", "_ _ _", "===", "==", "##", "######", "#######", "```", "````", "~~~", "``` x", "~~~ x", "1.", "1)", "0.", "01.", "123456789.",
    "123456789)", "1234567890.", "12.5", "1.)", "1. 2.", "1) -", "2. x", "-x", "+x", "#x", ">x", "=x", "x=", "x-", "x#", "x #", "# #",
    "x ##", "x \\#", "# x #", "- x", "+ x", "* x", "> x", "1. x", "![", "![x](y)", "[x](y)", "[x]: /y", "[x]: y 'z'", "[x][y]", "[^1]:",
    "[ ] x", "[x] y", "<a>", "</a>", "<!-- x -->", "<!--", "<?x", "<![CDATA[", "<!X", "<http://x.y>", "<x@y.z>", "http://x.y/_z_",
    "www.x.y", "x@y.z", "**x**", "*x*", "__x__", "_x_", "~~x~~", "~x~", "`x`", "`` x ``", "x\\", "\\\\", "\\x", "\\*", "\\|", "\\\\|",
    "\\\\\\|", "x|y", "x\\|y", "x\\\\|y", "|x|", "| x |", "|-|", "| - |", "---|---", "- | -", ":-", ":-:", "-:", "|:-:|", "--|", "\\`",
    "$x$", "{x}", "\"x\"", "'x'", "x  y", "%", "^x^", ";", ",", "?", "@", "/", "x!", "! [x]", "x!\\[", "--- x", "=== x", "script", "br",
    "<script>", "<br>", "\\<br>", "x<br>", "</li>", "\ufeff", "\ufeffx", "\u200b", "\u200d", "\u00ad", "é", "—", "–", "日本", "🛥", "٣.", "１.",
    "\x01", "\x08", "\x0e", "\x1b", "\x1c", "\x1f", "\x7f", "\u2212", "•", "\u2060x", "0", "007", "9999999999", "\ue000", "\U0010ffff",
]
NUMBERS = [b"0", b"1", b"2", b"9", b"10", b"99", b"100", b"999", b"99999999", b"999999998", b"999999999", b"1000000000", b"4294967296",
           b"99999999999999999999", b"-1", b"-0", b"-", b"+", b"+5", b"+007", b" +007", b"-4", b"", b" ", b"x", b"7x", b"7 8", b"3.5", b"1e3",
           b"0x10", b"--1", b"+-1", b"- 1", b"000000000000000012", b"00000000001000000000", b"\t\n\x0c\r 12", b"\x0b7", "\xa07".encode(),
           "７".encode(), "7\u0665".encode(), b"5\x00", b"\x005", b"'9'", b"09", b"008", b"&49;", b"-999999999999", b"+0", b"+000999999999"]


def catch(r):
    return [w for w in r.choice(CATCHES).split(" ") if w]


def random_word(r):
    """at least one character; neither a white byte nor NUL, VT or `&` in it, nor a blank outside ASCII at either end"""
    kind = r.randrange(10)
    if kind < 2:
        return "".join(r.choice("abcxyzABC019") for _ in range(r.randint(1, 4)))
    if kind < 5:
        return "".join(r.choice(PUNCTUATION + "a1") for _ in range(r.randint(1, 4)))
    if kind == 5:
        w = r.choice(PUNCTUATION)
        at = r.randrange(3)
        return (w if at == 0 else "") + r.choice("xy1") + (w if at == 1 else "") + r.choice("xy2") + (w if at == 2 else "")
    if kind == 6:
        return r.choice("#=-+*_>~`|\\.:!") * r.randint(1, 8) + r.choice(["", "", "x", "."])
    if kind == 7:
        return "".join(r.choice("0123456789") for _ in range(r.randint(1, 11))) + r.choice([".", ")", "", ".x", ")x", "..", "-"])
    return r.choice(catch(r))


def random_text(r, longest=6):
    n = r.randint(1, longest) if r.randrange(3) else 1
    ws = []
    while len(ws) < n:
        if r.randrange(5):
            ws.append(random_word(r))
        else:
            ws += catch(r)
    for i, w in enumerate(ws):
        if r.randrange(12) == 0:
            blank = "".join(r.choice(BLANKS) for _ in range(r.randint(1, 2)))
            place = r.randrange(4)
            if place == 0 and i > 0:
                ws[i] = blank + w
            elif place == 1 and i + 1 < len(ws):
                ws[i] = w + blank
            elif place == 2 and 0 < i < len(ws) - 1:
                ws[i] = blank
            elif len(w) > 1:
                k = r.randint(1, len(w) - 1)
                ws[i] = w[:k] + blank + w[k:]
    out = b""
    for i, w in enumerate(ws):
        out += (r.choice(SEPARATORS) if i else b"") + w.encode()
    if r.randrange(6) == 0:
        out = r.choice(SEPARATORS) + out
    if r.randrange(6) == 0:
        out = out + r.choice(SEPARATORS)
    return out


PRE_LINES = ["", "", " ", "   ", "\t", "x", "x  ", "x\t", "\tx", "    x", "```", "````", "`````", " ```", "   ```", "    ```", "``` x", "```x", "x```",
             "~~~", "~~~~", "`", "``", "` `` ```", "- x", "1. x", "# x", "> x", "---", "===", "| x |", "| - |", "&amp;", "&", "<pre>", "</pre>",
             "\\", "x\\", "\\```", "\x0b", "\x0c", "\x0b```", "```\x0c", "\ufeff", "\u2028", "\x85", "\xa0", "\xa0```", "é", "🛥", "\x01", "\x7f", "[x]: y",
             "*x*", "<!--", "x\u3000"]


def random_fixed(r):
    """without NUL or CR; perhaps empty"""
    if r.randrange(8) == 0:
        return r.choice([b"", b"\n", b"\n\n", b" ", b"`", b"```", b"``", b"\t", b"\n\nx", b"x\n\n\n", b" \n", b"\n ", b"\x0c"])
    lines = [r.choice(PRE_LINES) if r.randrange(4) else "".join(r.choice("`~ \tx\\&|-") for _ in range(r.randint(0, 8)))
             for _ in range(r.randint(1, 5))]
    return ("\n".join(lines) + "\n" * r.choice([0, 0, 1, 1, 2, 3])).encode()


def number_attribute(r, name, chance):
    attrs = []
    if r.random() < chance:
        attrs.append((name, r.choice(NUMBERS) if r.randrange(3) else b"%d" % r.choice([0, 1, 2, 8, 9, 98, 99, 999, r.randrange(10 ** 9)])))
        if r.randrange(12) == 0:
            attrs.append((name, r.choice(NUMBERS)))
    return attrs


def random_list(r, levels):
    """`levels` lists may still stand in one another"""
    name = r.choice(["ul", "ol"])
    attrs = number_attribute(r, b"start", 0.5) if name == "ol" else []
    own = r.choice([0, 0, 0.3])
    items = []
    due = own_number(attrs, b"start")
    due = 1 if due is None else due
    for k in range(r.choice([1, 1, 2, 2, 3, 4])):
        value = number_attribute(r, b"value", own)
        number = own_number(value, b"value")
        if name == "ol" and number is None and due > LARGEST:
            if r.randrange(2):
                break
            value = [(b"value", r.choice([b"0", b"7", b"999999999"]))]
            number = own_number(value, b"value")
        due = (due if number is None else number) + 1
        inside = [random_text(r, 4)]
        if levels > 1 and r.randrange(3) == 0:
            inside += [random_list(r, levels - 1) for _ in range(r.choice([1, 1, 1, 2, 3]))]
        items.append(("li", value, inside))
    return (name, attrs, items)


def deep_list(r, levels):
    """one list in another, `levels` of them"""
    inner = None
    for _ in range(levels):
        leaf = random_list(r, 1)
        if inner is not None:
            leaf[2][r.randrange(len(leaf[2]))][2].append(inner)
        inner = leaf
    return inner


def random_table(r):
    width = r.choice([1, 1, 2, 2, 3, 4])
    style = r.randrange(4)
    rows = []
    for k in range(r.choice([1, 1, 2, 3, 4])):
        def kind():
            if style == 0:
                return "td"
            if style == 1:
                return "th" if k == 0 else "td"
            return "th" if style == 2 or r.randrange(2) else "td"
        rows.append(("tr", [], [(kind(), [], [random_text(r, 3)]) for _ in range(width)]))
    parts = []
    while rows:
        if r.randrange(8) == 0:
            parts.append((r.choice(["thead", "tbody"]), [], []))
        if r.randrange(2):
            parts.append(rows.pop(0))
        else:
            n = r.randint(1, len(rows))
            parts.append((r.choice(["thead", "tbody"]), [], rows[:n]))
            rows = rows[n:]
    if r.randrange(8) == 0:
        parts.append((r.choice(["thead", "tbody"]), [], []))
    return ("table", [], parts)


def random_block(r, levels=3):
    kind = r.randrange(16)
    if kind < 3:
        return ("p", [], [random_text(r)])
    if kind < 5:
        return (r.choice(HEADINGS), [], [random_text(r)])
    if kind == 5:
        return ("hr", [], [])
    if kind < 8:
        return ("pre", [], [random_fixed(r)])
    if kind < 10:
        return random_table(r)
    if kind < 14:
        return random_list(r, r.choice([1, 2, 3, 5]))
    if kind == 14 and r.randrange(6) == 0:
        return deep_list(r, r.randint(5, 45))
    return (r.choice(WRAPPERS), [], [random_block(r, levels - 1) for _ in range(r.choice([0, 1, 1, 2, 3]) if levels else 0)])


def random_sheet(r):
    return [random_block(r) for _ in range(r.choice([0, 1, 1, 1, 2, 2, 3, 4, 5]))]


def short_sheets(n):
    """every text of at most n characters, each ASCII punctuation, `a`, `1` or a blank, in every kind of element that holds one"""
    for k in range(1, n + 1):
        for chars in itertools.product(PUNCTUATION + "a1 ", repeat=k):
            t = "".join(chars).encode()
            if words(t):
                yield [el("p", t), el("h2", t), el("ul", li(t, ol(li(t), li(t)), el("ul", li(t)))), el("table", row(t, t, kind="th"), row(t, b"x")),
                       ol(li(t), start=b"7"), el("table", row(t)), el("pre", t), el("p", t)]


# ---------------------------------------------------------------- sheets at the edges and sheets that break one sentence

def li(text, *lists, **attrs):
    return ("li", [(k.encode(), v) for k, v in attrs.items()], [text] + list(lists))


def ol(*items, **attrs):
    return ("ol", [(k.encode(), v) for k, v in attrs.items()], list(items))


def row(*cells, kind="td"):
    return el("tr", *[el(kind, c) for c in cells])


def edges():
    yield "empty sheet", []
    for name in WRAPPERS:
        yield "empty " + name, [el(name)]
        yield "wrappers in " + name, [el(name, el("div", el("section")), el("hr"), el("article", el("p", b"x")))]
    for name in ("p",) + HEADINGS:
        yield name, [el(name, b"x")]
    for b in BLANKS:
        yield "blank inside", [el("p", ("x%sy" % b).encode()), el("h1", ("x %s y" % b).encode()), el("ul", li(("x%s y" % b).encode()))]
    for c in [chr(k) for k in range(1, 128) if chr(k) not in "\t\n\x0b\x0c\r &"]:
        yield "one character", [el("p", c.encode()), el("h2", c.encode()), el("ul", li(c.encode())), el("table", row(c.encode()))]
        yield "at either end", [el("p", ("x" + c).encode()), el("h2", (c + "x").encode()), el("ul", li(("x " + c).encode()))]
    for w in (b"\t", b"\n", b"\x0c", b"\r", b" "):
        yield "white bytes", [el("p", w + b"x" + w + b"y" + w), el("table", row(w + b"x" + w + b"y" + w)), el("pre", w if w != b"\r" else b"")]
    for s in (b"", b"\n", b"&", b"\x0b", b"\x0c", " \xa0".encode(), b"```"):
        yield "pre", [el("pre", s)]
    yield "value on an item of a ul", [el("ul", li(b"x", value=b"999999999"), li(b"y"), li(b"z", value=b"x"))]
    yield "the largest number", [ol(li(b"x"), start=b"999999999")]
    yield "up to the largest number", [ol(li(b"x"), li(b"y"), start=b"999999998")]
    yield "past it by a value", [ol(li(b"x"), li(b"y", value=b"5"), li(b"z"), start=b"999999999")]
    yield "the largest by a value, last", [ol(li(b"x"), li(b"y", value=b"1000000000"))]
    yield "the largest by values", [ol(li(b"x", value=b"999999999"), li(b"y", value=b"999999999"))]
    yield "a new list begins anew", [ol(li(b"x", ol(li(b"y")), ol(li(b"z"), start=b"999999999")), start=b"999999999"), ol(li(b"x"))]
    yield "a value before the start counts", [ol(li(b"x", value=b"3"), li(b"y"), start=b"999999999")]
    yield "start that is no number", [ol(li(b"x"), start=b"x"), ol(li(b"x"), start=b"-"), ol(li(b"x"), start=b"-7")]
    yield "an attribute twice", [("ol", [(b"start", b"7"), (b"start", b"999999999")], [("li", [(b"value", b"x"), (b"value", b"5")], [b"x"]), li(b"y")])]
    yield "both groups empty beside a row", [el("table", el("thead"), row(b"x"), el("tbody"))]
    yield "groups in any order", [el("table", el("tbody", row(b"x")), row(b"y"), el("thead", row(b"z")), el("thead", row(b"w")))]
    yield "th alone", [el("table", row(b"x", b"y", kind="th"))]
    yield "th in a later row", [el("table", row(b"x", b"y"), row(b"x", b"y", kind="th"))]
    yield "mixed first row", [el("table", el("tr", el("th", b"x"), el("td", b"y")))]
    yield "several lists in an item", [el("ul", li(b"x", el("ul", li(b"y")), ol(li(b"z")), el("ul", li(b"w"))))]
    for v in NUMBERS:
        yield "number", [ol(li(b"x"), start=v), ol(li(b"x", value=v)), ol(li(b"x"), li(b"y", value=v), start=b"41")]


def breaks():
    """(the sentence of document 01, a sheet that breaks it and no other)"""
    for part in (break_blocks, break_holders, break_lists, break_tables, break_parts, break_texts, break_attributes, break_numbers):
        yield from part()


def break_blocks():
    s = "A plain sheet holds blocks and nothing else."
    yield s, [b"x"]
    yield s, [b"\n"]
    yield s, [b""]
    yield s, [el("p", b"x"), b"x"]
    yield s, [Comment(b"x")]
    yield s, [el("p", b"x"), Comment(b"")]
    for name in ("span", "blockquote", "dl", "br", "a", "b", "em", "code", "img", "main", "P", "Pre", "h0", "h7", "h", "h11", "script", "body"):
        yield s, [el(name, b"x")]
        yield s, [el(name)]
    yield s, [el("li", b"x")]
    yield s, [row(b"x")]
    yield s, [el("td", b"x")]
    yield s, [el("thead", row(b"x"))]
    s = "`hr` with nothing inside"
    for inside in (b"", b"x", Comment(b"x"), el("p", b"x"), el("hr")):
        yield s, [el("hr", inside)]
    s = "`div`, `section`, `article` holding only blocks"
    for name in WRAPPERS:
        for inside in (b"", b" ", b"x", Comment(b"x"), el("span", b"x"), el("li", b"x"), row(b"x"), el("td", b"x")):
            yield s, [el(name, inside)]
            yield s, [el(name, el("p", b"x"), inside)]
            yield s, [el("div", el(name, inside, el("hr")))]


def holders(kids):
    """sheets in which an element that holds one text has these children"""
    for name in ("p",) + HEADINGS:
        yield [el(name, *kids)]
    for name in ("th", "td"):
        yield [el("table", el("tr", el("td", b"x"), el(name, *kids)))]
        yield [el("table", el("thead", el("tr", el(name, *kids))))]


def break_holders():
    s = "`p`, headings, `th`, `td` hold one text"
    for kids in ((), (b"x", b"y"), (b"x", Comment(b"")), (Comment(b""), b"x"), (el("b", b"x"),), (b"x", el("br")), (b"x", el("ul", li(b"y"))),
                 (el("p", b"x"),), (b"x", b"")):
        for sheet in holders(kids):
            yield s, sheet


INNER = el("ul", li(b"y"))


def break_lists():
    s = "an `li` holds one text and then any number of lists"
    for kids in ((), (INNER,), (b"x", b"y"), (INNER, b"x"), (b"x", INNER, b"y"), (b"x", el("p", b"y")), (el("p", b"x"),), (b"x", Comment(b"")),
                 (Comment(b""), b"x"), (b"x", el("pre", b"y")), (b"x", el("div", INNER)), (b"x", el("hr")), (b"x", li(b"y")), (b"x", INNER, el("p", b"y"), INNER),
                 (b"x", el("table", row(b"y")))):
        yield s, [el("ul", el("li", *kids))]
        yield s, [ol(li(b"x"), el("li", *kids))]
        yield s, [ol(li(b"x", el("ul", el("li", *kids))))]
    s = "lists hold at least one `li` and nothing else"
    for name in ("ul", "ol"):
        for kids in ((), (b"x",), (b"\n",), (b"\n", li(b"x")), (li(b"x"), b""), (Comment(b""),), (li(b"x"), Comment(b"")), (el("p", b"x"),),
                     (INNER,), (li(b"x"), INNER), (li(b"x"), el("hr"), li(b"y")), (el("div", li(b"x")),), (li(b"x"), el("LI", b"x"))):
            yield s, [el(name, *kids)]
            yield s, [el("ul", li(b"x", el(name, *kids)))]
            yield s, [el("ul", li(b"x", INNER, el(name, *kids)))]


def break_tables():
    s = "A table holds one or more `tr`, directly or in `thead` and `tbody`"
    for kids in ((), (el("thead"),), (el("thead"), el("tbody"))):
        yield s, [el("table", *kids)]
    s = "every `tr` the same number of cells (`th` or `td`), at least one"
    for kids in ((el("tr"),), (el("tr"), el("tr")), (row(b"x"), el("tr")), (el("tr"), row(b"x")), (row(b"x"), row(b"x", b"y")), (row(b"x", b"y"), row(b"x")),
                 (el("thead", row(b"x", kind="th")), el("tbody", row(b"x", b"y"))), (row(b"x", kind="th"), row(b"x", b"y"), row(b"x", b"y")),
                 (el("tbody", row(b"x"), row(b"x")), row(b"x", b"y")), (el("tr", el("th", b"x"), el("td", b"y")), row(b"x"))):
        yield s, [el("table", *kids)]


def break_parts():
    r = row(b"x")
    s = "`table`, `thead`, `tbody` and `tr` hold nothing else"
    for kids in ((b"x", r), (r, b"\n"), (Comment(b""), r), (r, el("td", b"x")), (el("caption", b"x"), r), (r, el("tfoot", r)), (r, el("p", b"x")), (el("div", r),),
                 (el("colgroup"), r), (r, el("table", r)), (r, el("hr"))):
        yield s, [el("table", *kids)]
    for name in ("thead", "tbody"):
        for kids in ((b"x",), (b"\n", r), (Comment(b""), r), (el("td", b"x"),), (el("thead", r),), (el("tbody"),), (r, el("div", r)), (r, el("table", r))):
            yield s, [el("table", r, el(name, *kids))]
    cell = el("td", b"x")
    for kids in ((cell, b"x"), (b"\n", cell), (cell, Comment(b"")), (el("div", cell),), (cell, el("p", b"x")), (cell, el("li", b"x")), (cell, el("TD", b"x")),
                 (cell, row(b"x")), (cell, el("tr"))):
        yield s, [el("table", el("tr", *kids))]


def texts(t):
    """sheets with this text in every place for one"""
    for name in ("p",) + HEADINGS:
        yield [el(name, t)]
    for name in ("th", "td"):
        yield [el("table", el("tr", el("td", b"x"), el(name, t)))]
        yield [el("table", row(b"x"), el("tbody", el("tr", el(name, t))))]
    yield [el("ul", li(b"x"), li(t))]
    yield [ol(li(t, INNER))]
    yield [el("ul", li(b"x", ol(li(t))))]


def break_texts():
    for s, ts in (("These texts have a word each", (b"", b" ", b"\n", b"\t\x0c\r \n")),
                  ("no NUL, VT or `&`: NUL", (b"x\0", b"\0", b"\0x", b"x\0y", b"x \0 y")),
                  ("no NUL, VT or `&`: VT", (b"x\x0b", b"\x0b", b"\x0bx", b"x\x0by", b"x \x0b y")),
                  ("no NUL, VT or `&`: &", (b"x&", b"&", b"&x", b"x&y", b"x & y", b"&amp;")),
                  ("white bytes apart, no blank outside ASCII at either end",
                   [f % b for b in [c.encode() for c in BLANKS] for f in (b"%s", b"%sx", b"x%s", b" %s x", b"x %s ", b"\n\t%sx", b"x y%s\x0c\r", b"x \xe2\x80\x8b%s")])):
        for t in ts:
            for sheet in texts(t):
                yield s, sheet
    s = "A `pre` holds one text without NUL or CR."
    for kids in ((), (b"x", b"y"), (b"", b""), (Comment(b""),), (b"x", Comment(b"")), (el("code", b"x"),), (b"x", el("b", b"y")), (b"x\0",), (b"\0",), (b"x\r",),
                 (b"x\r\ny",), (b"\r",)):
        yield s, [el("pre", *kids)]


def having(sheet, path, attrs):
    """the sheet with these attributes on the element at that path"""
    i = path[0]
    name, own, kids = sheet[i]
    new = (name, own + attrs, kids) if len(path) == 1 else (name, own, having(kids, path[1:], attrs))
    return sheet[:i] + [new] + sheet[i + 1:]


def break_attributes():
    s = "The only attributes are `start` on `ol`, `value` on `li`"
    one = [(b"class", b"x")], [(b"start", b"1")], [(b"value", b"1")], [(b"data-lang", b"c")], [(b"START", b"1")], [(b"starts", b"1")], [(b"star", b"1")], [(b"id", b"")]
    whole = [el("p", b"x"), el("h3", b"x"), el("hr"), el("pre", b"x"), el("div", el("p", b"x")), el("section"), el("article", el("hr")), el("ul", li(b"x"), li(b"y")),
             ol(li(b"x"), li(b"y")), el("table", el("thead", el("tr", el("th", b"x"), el("td", b"y"))), el("tbody"), row(b"x", b"y"))]
    paths = [(i,) for i in range(10)] + [(4, 0), (6, 0), (7, 0), (7, 1), (8, 0), (8, 1), (9, 0), (9, 0, 0), (9, 0, 0, 0), (9, 0, 0, 1), (9, 1), (9, 2), (9, 2, 0)]
    for path in paths:
        for attrs in one:
            allowed = {(8,): b"start", (7, 0): b"value", (7, 1): b"value", (8, 0): b"value", (8, 1): b"value"}.get(path)
            if attrs[0][0] != allowed:
                yield s, having(whole, path, attrs)
                if allowed:
                    yield s, having(whole, path, [(allowed, b"1")] + attrs)


def break_numbers():
    s = "no item's number, counted on from the one before it, would pass 999,999,999"
    x, y, z = li(b"x"), li(b"y"), li(b"z")
    for sheet in ([ol(x, y, start=b"999999999")], [ol(x, y, z, start=b"999999998")], [ol(x, y, start=b"1000000000")], [ol(x, y, start=b" +0099999999999999")],
                  [ol(li(b"x", value=b"999999999"), y)], [ol(x, li(b"y", value=b"999999998"), z, li(b"w"))], [ol(x, li(b"y", value=b"junk"), start=b"999999999")],
                  [ol(x, li(b"y", value=b""), start=b"999999999")], [ol(li(b"x", value=b"-"), li(b"y", value=b"+"), start=b"999999999")],
                  [el("ul", li(b"x", ol(x, y, start=b"999999999")))], [ol(li(b"x", ol(z)), y, start=b"999999999")],
                  [ol(li(b"x", ol(li(b"y", value=b"3"))), z, start=b"999999999")], [el("div", el("section", ol(x, y, start=b"999999999")))],
                  [("ol", [(b"start", b"999999999"), (b"start", b"1")], [x, y])], [("ol", [], [("li", [(b"value", b"999999999"), (b"value", b"1")], [b"x"]), y])],
                  [ol(x, li(b"y", value=b"5"), li(b"z", value=b"4294967295"), x)]):
        yield s, sheet


def embedded(r, sheet):
    """the sheet among random plain blocks, perhaps in wrappers"""
    for _ in range(r.choice([0, 0, 1, 2])):
        sheet = [(r.choice(WRAPPERS), [], around(r, sheet))]
    return around(r, sheet)


def around(r, sheet):
    return [random_block(r) for _ in range(r.randrange(2))] + list(sheet) + [random_block(r) for _ in range(r.randrange(2))]


NODES = [b"", b" ", b"x", b"x&", b"\0", "\xa0".encode(), Comment(b"x"), el("p", b"x"), el("hr"), el("ul", li(b"x")), ol(li(b"x"), start=b"999999999"),
         el("li", b"x"), el("tr", el("td", b"x")), el("td", b"x"), el("th", b"x"), el("thead"), el("tbody"), el("div"), el("pre", b"x"), el("span", b"x"),
         el("table", row(b"x"))]
NAMES = ["p", "h1", "h6", "hr", "pre", "div", "section", "ul", "ol", "li", "table", "thead", "tbody", "tr", "th", "td", "span", "code"]


def changed(r, sheet):
    """one change at a random place: a node more, a node less, another name, an attribute, another text. Perhaps still plain"""
    if not sheet or r.randrange(8) == 0:
        at = r.randint(0, len(sheet))
        return sheet[:at] + [r.choice(NODES)] + sheet[at:]
    at = r.randrange(len(sheet))
    node = sheet[at]
    kind = r.randrange(8)
    if kind == 0:
        return sheet[:at] + sheet[at + 1:]
    if isinstance(node, bytes):
        k = r.randint(0, len(node.decode()))
        s = node.decode()
        node = (s[:k] + r.choice(["\0", "\x0b", "&", "\r", " ", "x"] + [r.choice(BLANKS)] * 6) + s[k:]).encode()
    elif is_element(node):
        name, attrs, kids = node
        if kind == 1:
            node = (r.choice(NAMES), attrs, kids)
        elif kind == 2:
            node = (name, attrs + [(r.choice([b"start", b"value", b"class"]), r.choice(NUMBERS))], kids)
        elif kind == 3 and attrs:
            node = (name, [], kids)
        else:
            node = (name, attrs, changed(r, kids))
    return sheet[:at] + [node] + sheet[at + 1:]


# ---------------------------------------------------------------- in antt

USES = """
use Rattle.spec.specs.Bytes.{Bytes, ascii}
use Rattle.spec.specs.Fields.{fields}
use Rattle.spec.specs.Tree.{tree_of}
use Rattle.spec.specs.Entries.{word, Entry, rule, heading, paragraph, fixed, item, table, same_entries}
use Rattle.spec.specs.Plain.{plain}
use Rattle.spec.specs.SheetList.{sheet_list}
"""

EQUALITY = """
plain_with : Bytes → List Entry → Bool
plain_with sheet entries = let tree = tree_of (fields sheet) in plain tree && same_entries (sheet_list tree) entries

not_plain : Bytes → Bool
not_plain sheet = not (plain (tree_of (fields sheet)))
"""

READING_USES = """
use Rattle.spec.specs.Questions.{standard}
use Rattle.spec.specs.Call.{written}
use Rattle.spec.specs.Reading.{read}
"""

READING = """
reads_back : Bytes → Bool
reads_back sheet = same_entries (read (written sheet standard 0 false).text) (sheet_list (tree_of (fields sheet)))
"""


def in_batches(bench, cases, name, size):
    """the cases that fail; a case is a sheet and a term"""
    bad = []
    for k in range(0, len(cases), size):
        part = cases[k:k + size]
        bad += [part[i] for i in bench.failures([term for _, term in part])]
        print("  %s: %d of %d, %d differ" % (name, min(k + size, len(cases)), len(cases), len(bad)), flush=True)
    for sheet, _ in bad[:5]:
        print("  differs:", sheet)
    return len(bad)


def random_sheets(seed, n):
    """the sheets of a seed: sheet k is the same whatever n is"""
    for k in range(n):
        yield random_sheet(random.Random("%d %d" % (seed, k)))


def plain_term(sheet):
    return "plain_with %s %s" % (antt.literal(encode(sheet)), antt.entries(sheet_list(sheet)))


def other_term(sheet):
    return "not_plain %s" % antt.literal(encode(sheet))


def compare_antt(args):
    print("seed %d" % args.seed)
    groups = []
    groups.append(("random plain sheets", [(s, plain_term(s)) for s in random_sheets(args.seed, args.sheets)]))
    groups.append(("edges", [(s, plain_term(s)) for _, s in edges()]))
    broken = list(breaks())
    r = random.Random("breaks %d" % args.seed)
    cases = [(s, other_term(s)) for _, s in broken]
    groups.append(("sheets that break one of %d sentences" % len({t for t, _ in broken}), cases))
    amid = [embedded(r, r.choice(broken)[1]) for _ in range(args.sheets // 5)]
    groups.append(("the same amid plain blocks", [(s, other_term(s)) for s in amid]))
    mixed = [changed(r, random_sheet(r)) for _ in range(args.sheets // 2)]
    still = sum(1 for s in mixed if is_plain(s))
    groups.append(("changed sheets, %d of them plain" % still,
                   [(s, plain_term(s) if is_plain(s) else other_term(s)) for s in mixed]))
    wrong = 0
    with antt.Bench(USES + EQUALITY) as bench:
        for name, cases in groups:
            n = in_batches(bench, cases, name, args.batch)
            print("%s: %d, %d differ" % (name, len(cases), n), flush=True)
            wrong += n
    return wrong


def compare_reading(args):
    print("seed %d" % args.seed)
    sheets = [encode(s) for s in itertools.chain(random_sheets(args.seed, args.sheets), (s for _, s in edges()))]
    cases = [(s, "reads_back %s" % antt.literal(s)) for s in sheets if len(s) <= args.largest]
    with antt.Bench(USES + READING_USES + EQUALITY + READING) as bench:
        wrong = in_batches(bench, cases, "read back", args.batch)
    print("sheets read back: %d, %d differ; %d left out as longer than %d bytes" % (len(cases), wrong, len(sheets) - len(cases), args.largest))
    return wrong


# ---------------------------------------------------------------- with cmark-gfm

def by_position(entries):
    """the list with the numbers that cmark gives: in each of its lists the first number, counted on. Neighbouring lists of a kind are
    one list to it"""
    out = []
    last = {}          # depth: the number of the last item of the list that is open there
    for e in entries:
        if e[0] != "item":
            last = {}
            out.append(e)
            continue
        _, depth, number, ws = e
        last = {d: n for d, n in last.items() if d <= depth}
        before = last.get(depth)
        if number is not None and before is not None:
            number = before + 1
        last[depth] = number
        out.append(("item", depth, number, ws))
    return out


class Cmark:
    def __init__(self, model, tools):
        sys.path[:0] = [model, tools]
        from cmark_list import flat
        from model_sheet import decode
        from model_writer import write_md
        self.flat, self.decode, self.write = flat, decode, write_md
        self.marks = 0

    def text(self, sheet):
        tree = self.decode(encode(sheet))
        if isinstance(tree, int):
            raise ValueError("question %d: %r" % (tree, sheet))
        return self.write(tree, False)[0]

    def differs(self, sheet):
        text = self.text(sheet)
        if text.startswith(b"\xef\xbb\xbf"):
            self.marks += 1
            text = b"\n" + text           # cmark drops U+FEFF at the start of the text, of which CommonMark says nothing
        return self.flat(text) != by_position(sheet_list(sheet))


def smaller(sheet):
    """plain sheets that are a little less"""
    for i, node in enumerate(sheet):
        yield sheet[:i] + sheet[i + 1:]
        if isinstance(node, bytes):
            s = node.decode()
            for k in range(len(s)):
                yield sheet[:i] + [(s[:k] + s[k + 1:]).encode()] + sheet[i + 1:]
        else:
            name, attrs, kids = node
            if name in WRAPPERS:
                yield sheet[:i] + kids + sheet[i + 1:]
            if attrs:
                yield sheet[:i] + [(name, attrs[1:], kids)] + sheet[i + 1:]
            for less in smaller(kids):
                yield sheet[:i] + [(name, attrs, less)] + sheet[i + 1:]


def minimised(sheet, test):
    again = True
    while again:
        again = False
        for less in smaller(sheet):
            if is_plain(less) and test(less):
                sheet, again = less, True
                break
    return sheet


def compare_cmark(args):
    reader = Cmark(args.model, args.tools)
    print("seed %d" % args.seed)
    wrong, kinds, deepest, counts = 0, {}, 0, {}
    runs = [("edges", (s for _, s in edges())), ("random sheets", random_sheets(args.seed, args.sheets)),
            ("sheets of texts of at most %d characters" % args.short, short_sheets(args.short))]
    for run, sheet in ((name, s) for name, sheets in runs for s in sheets):
        counts[run] = counts.get(run, 0) + 1
        entries = sheet_list(sheet)
        for e in entries:
            kinds[e[0]] = kinds.get(e[0], 0) + 1
            if e[0] == "item":
                deepest = max(deepest, e[1])
        if reader.differs(sheet):
            wrong += 1
            if wrong <= args.show:
                least = minimised(sheet, reader.differs)
                print("differs:", least)
                print("  text: %r" % reader.text(least))
                print("  list: %r" % by_position(sheet_list(least)))
                print("  read: %r" % reader.flat(reader.text(least)), flush=True)
    print("entries: %s; deepest item %d" % (", ".join("%s %d" % p for p in sorted(kinds.items())), deepest))
    print("%s: %d differ; %d texts begin with U+FEFF" % (", ".join("%s %d" % p for p in counts.items()), wrong, reader.marks))
    return wrong


def main():
    p = command_line.parser(__doc__)
    p.add_argument("run", choices=["antt", "cmark", "reading"])
    p.add_argument("--sheets", type=int, default=10000)
    p.add_argument("--seed", type=int, default=1)
    p.add_argument("--batch", type=int, default=500, help="sheets in one check of antt")
    p.add_argument("--short", type=int, default=2, help="also every text of at most so many characters")
    p.add_argument("--largest", type=int, default=500, help="the longest sheet, in bytes, whose text is made and read in antt")
    p.add_argument("--show", type=int, default=5, help="how many differences to minimise")
    p.add_argument("--model", default="../shared/model", help=command_line.MODEL)
    p.add_argument("--tools", default="../shared/tools", help="folder of cmark_list.py")
    args = p.parse_args()
    run = {"antt": compare_antt, "cmark": compare_cmark, "reading": compare_reading}[args.run]
    sys.exit(1 if run(args) else 0)


if __name__ == "__main__":
    main()
