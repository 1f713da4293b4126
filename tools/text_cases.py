"""Makes the stored cases of the program crates/text_cases, which replays them on the leaf functions of the
crates normalized, marks and lists_links.

    python3 tools/text_cases.py --oracle ../shared/oracle --model ../shared/model

The bytes that a case expects are the Rust's, where the leaf is reached by a small sheet whose text is what the leaf appends
(`Maker.rust`), and otherwise the second definition's in Python (`Maker.model`), which gives the peak of both kinds. Each input is stored
with room exactly for the peak, and with one byte less, which is refused; where a text is begun behind the text, with some room left too.
Where both give a text they must agree. The binary of the Rust is found as the oracle's client says (ORACLE or ORACLE_BUILD).
"""
import os
import sys

import command_line

HERE = os.path.dirname(os.path.abspath(__file__))
TARGET = os.path.join(HERE, "..", "crates", "text_cases")

INLINE, SKIP_ESCAPE, LIST_ITEM, TABLE_CELL, ORDERED, COUNTS, BLOCKS, FIRST, INDENTED, BLANK = (1 << n for n in range(10))

TEXTS = [
    b"", b"a", b" ", b"\n", b" \t\r\n\x0c", b"word", b" word", b"word ", b" word ", b"two words", b"two \n\t words", b"\x0bword\x0b",
    b"a\xc2\xa0b", b"\xc2\xa0", b"\xe2\x80\x83 word", b"*", b"a*b*c", b"_a_", b"`", b"[x]", b"]", b"<br>", b"|", b"~~", b"\\", b"a\\*b",
    b"# h", b"#", b"a #", b"> q", b">", b"- x", b"-", b"--", b"-x", b"+ x", b"+", b"1. x", b"1.", b"12)", b"12) x", b"1", b".", b")",
    b". x", b") x", b"1.2", b"999999999.", b"1234567890.", b"=", b"===", b"==x", b"= =", b"!", b"![", b"![x](y)", b"a!", b"!!", b"!\n[",
    b"word 1.", b"a - b", b"a # b", b"&amp;", b"a\xe2\x82\xacb", b"\xf0\x9f\x98\x80",
]
STARTS = [b"", b"a", b"a ", b"a\n", b"1", b"12", b"a 1", b"- 1", b"a\n1", b"a\n  1", b"1. 2", b"+ 7", b"1234567890", b" 5", b"x-1",
          b"a\\", b"!", b"a!"]
URLS = [
    b"u", b"http://a.b/c?d=e&f", b"a b", b" ", b"a<b", b"a>b", b"a\\b", b"(", b")", b"()", b"a(b)c", b"a)b(", b"((a)", b"(a))", b'"', b"&",
    b"\xc2\xa0", b"a\xc2", b"\xa0\xc2\xa0", b"a\nb", b"a\rb", b"\x7f", b"\x1f", b"\\<>\n\r&", b"a&\"\xc2\xa0(b)", b"%20",
]
TITLES = [b"", b" ", b"t", b"a b", b' "', b'"', b'"a" "b"', b'a\\"b', b"*t*", b"1. x", b"\n", b' " ', b"a\n\nb", b"[\"", b"- \""]
CODES = [b"", b"x", b"`", b"``", b"a`b", b"`a", b"a`", b" ", b"  ", b" a", b"a ", b" a ", b"a``b`c", b"```", b"a\\b", b"\xe2\x82\xac"]
NUMBERS = [
    b"", b" ", b"0", b"00", b"1", b"5", b"05", b"+5", b"-5", b"-0", b"--5", b"+-5", b"-+5", b"+", b"-", b" 5", b"\t\n\x0c\r 5", b"\x0b5", b"5abc",
    b"abc5", b"5 6", b"999999998", b"999999999", b"1000000000", b"000999999999", b"0001000000000", b"4294967295", b"4294967296",
    b"99999999999999999999999", b"- 5", b"+ 5", b"5.7", b"1e3", b"\xe0\xa5\xab", b"7", b"8",
]


def hexed(b):
    return b.hex() if b else "-"


class Maker:
    def __init__(self, oracle, writer, sheet):
        self.oracle, self.w, self.s = oracle, writer, sheet
        self.model_writer = writer.Writer(sheet.decode(b""))
        self.lines = {}  # and whether the Rust gave it

    def line(self, file, name, room, numbers, text, a, b, answer, expected, rust):
        flags, x, y = numbers
        line = "%s %s %d %d %d %d %s %s %s %s %s" % (
            file, name, room, flags, x, y, hexed(text), hexed(a), hexed(b), answer, hexed(expected))
        self.lines[line] = self.lines.get(line, False) or rust

    def answer(self, file, name, value, a=b"", b=b"", numbers=(0, 0, 0), rust=False):
        """a function that only reads: its text is a"""
        self.line(file, name, 0, numbers, b"", a, b, "F" if value is None else int(value), b"", rust)

    def buffer(self, text, begun=0):
        """a text of the model; `begun` bytes of another text count from the beginning"""
        t = self.w.Buf(self.w.Meter())
        t.b += text
        t.m.total = len(text) + begun
        return t

    def measure(self, text, begun, f):
        """the text after f, and the room that it takes"""
        t = self.buffer(text, begun)
        f(t)
        return bytes(t.b), max(t.m.peak, len(text))

    def stored(self, file, name, out, peak, least, text, a, b, numbers, rust):
        for spare in (0, 3) if least > len(text) or name in ("push_title", "write_img") else (0,):
            self.line(file, name, max(peak + spare, least), numbers, text, a, b, len(out), out, rust)
        if peak - 1 >= least:
            self.line(file, name, peak - 1, numbers, text, a, b, "F", b"", rust)

    def model(self, file, name, f, text=b"", a=b"", b=b"", numbers=(0, 0, 0), begun=0, behind=0):
        """f appends to a text of the second definition; `behind` bytes stand behind the text"""
        out, peak = self.measure(text, begun, f)
        self.stored(file, name, out, peak, len(text) + behind, text, a, b, numbers, False)

    def rust(self, file, name, expected, f, text=b"", a=b"", b=b"", numbers=(0, 0, 0), begun=0, behind=0):
        """the same with the Rust's text"""
        out, peak = self.measure(text, begun, f)
        if out != expected:
            raise SystemExit("%s: the Rust has %r, the model %r" % (name, expected, out))
        self.stored(file, name, expected, peak, len(text) + behind, text, a, b, numbers, True)

    def written(self, *trees):
        """the Rust's text of a sheet"""
        text = self.oracle.write(self.s.encode(*trees))
        if not isinstance(text, bytes):
            raise SystemExit("%r: the Rust says %s" % (trees, text))
        return text


def text_utils(k):
    w, el = k.w, k.s.el
    for s in TEXTS:
        for flags in (0, INLINE, SKIP_ESCAPE, LIST_ITEM):
            o = w.Opts(inline=flags == INLINE, skip_escape=flags == SKIP_ESCAPE, list_item=flags == LIST_ITEM)
            starts = STARTS[1:2] if flags else STARTS if s in (b".", b") x", b" ", b"!") else STARTS[:4]
            for t in starts:
                k.model("text_utils", "push_normalized_text", lambda b: w.push_normalized_text(b, s, o), t, s, numbers=(flags, 0, 0))
        if s and s.strip() == s and b"\x0b" not in s and w.utrim(s) == s:
            k.rust("text_utils", "push_normalized_text", k.written(el("p", s)), lambda b: w.push_normalized_text(b, s, w.DEFAULT), b"", s)
        k.answer("text_utils", "is_ordered_list_marker", w.is_ordered_list_marker(s), a=s)
        k.model("text_utils", "escape_trailing_bang", w.escape_trailing_bang, s)
        k.model("text_utils", "push_block_space", w.push_block_space, s)
        k.model("text_utils", "trim_space", w.trim_space, s)
        k.answer("text_utils", "trim_trailing_space", len(s.rstrip(b" ")), s)
    for lb, end in ((b"\n", b"\n\n"), (b"<br>", b"<br><br>"), (b"\n", b"\n")):
        for s in (b"", b"a", b"a ", b"\n", b" \n "):
            for t in (s, s + b"\n  ", s + b"<br>"):
                k.model("text_utils", "add_linebreaks", lambda b: w.add_linebreaks(b, lb, end), t, lb, end)
    for t in STARTS + TEXTS:
        k.answer("text_utils", "ends_with_marker_digits", w.ends_with_marker_digits(k.buffer(t)), t)
    for u in URLS:
        k.model("text_utils", "push_md_url", lambda b: b.push(w.md_url(u)), b"x", u)
        if w.utrim(u):
            text = k.written(el("img", src=u)) if w.is_utf8(u) else None
            if text is not None:
                k.rust("text_utils", "push_md_url", text[4:-1], lambda b: b.push(w.md_url(u)), b"", u)
    for s in TITLES:
        k.model("text_utils", "push_title", lambda b: w.push_title(b, s), b"x", s)
        k.rust("text_utils", "push_title", k.written(el("img", src="u", title=s))[5:-1], lambda b: w.push_title(b, s), b"", s)


def heading(k):
    w, el = k.w, k.s.el
    for n in range(32):
        k.answer("heading", "is_heading", 5 <= n <= 10, numbers=(0, n, 0))
    for n in range(1, 7):
        prefix = k.written(el("h%d" % n, "x"))[:-1]
        k.rust("heading", "md_prefix", prefix, lambda b: b.push(k.model_writer.prefix(b"h%d" % n)), numbers=(0, 4 + n, 0))
        k.model("heading", "md_prefix", lambda b: b.push(k.model_writer.prefix(b"h%d" % n)), b"a", numbers=(0, 4 + n, 0))
    k.model("heading", "md_prefix", lambda b: b.push(k.model_writer.prefix(b"hr")), b"a", numbers=(0, 15, 0))
    k.model("heading", "md_prefix", lambda b: None, b"a", numbers=(0, 4, 0))
    for s in (b"a", b"a #", b"a ##", b"a#", b"a # b", b"#", b"a #  ", b"a \\#", b"a #\xc2\xa0", b"a  ###", b"", b" #", b"a\xc2\xa0#"):
        k.model("heading", "escape_closing_hashes", w.escape_closing_hashes, s)
    for s in (b"a", b"a #", b"a ##", b"a#", b"a # b", b"a b ####"):
        k.rust("heading", "escape_closing_hashes", k.written(el("h2", s)), w.escape_closing_hashes, b"## " + s)


def code(k):
    w, el = k.w, k.s.el
    for s in CODES + TEXTS:
        k.answer("code", "max_backtick_run", w.max_backtick_run(s), a=s)
        k.model("code", "sanitize_attr_value", lambda b: b.push(w.sanitize(s)), b"x", s)
    for s in CODES:
        for t in (b"", b"a", b"a`", b"`"):
            k.model("code", "push_code_text", lambda b: w.push_code_text(b, s), t, s, behind=len(s))

            def counted(b):
                being = w.Buf(b.m)
                being.b += s
                w.push_code_text(b, s, being)
            k.model("code", "push_code_text", counted, t, s, numbers=(COUNTS, 0, 0), begun=len(s), behind=len(s))
            if s and t == b"" and w.utrim(s) == s:
                k.rust("code", "push_code_text", k.written(el("p", el("code", s))), counted, t, s, numbers=(COUNTS, 0, 0), begun=len(s), behind=len(s))
        for lang in (b"", b"rust", b" c++ x", b"a`b", b"\xc3\xa9") if s == b"x" else (b"rust",):
            tree = el("pre", s, data_lang=lang) if lang else el("pre", s)
            pre = k.s.decode(k.s.encode(tree)).nodes[1]
            for t in (b"", b"a", b"a\n", b"a\n\n"):
                k.model("code", "write_pre", lambda b: k.model_writer.write_pre(b, pre, w.DEFAULT), t, s, lang, behind=len(s))
            k.rust("code", "write_pre", b"a\n\n" + k.written(tree) + b"\n", lambda b: k.model_writer.write_pre(b, pre, w.DEFAULT),
                   b"a\n\n", s, lang, behind=len(s))


def emphasis(k):
    w, el = k.w, k.s.el
    for t in (b"", b"a", b"*a*", b"**a**", b"**a** ", b"*a* ", b"**a**  ", b"**a**\n", b"a\\*", b"a\\\\*", b"a\\**", b"a***", b"*", b"**", b" ", b"a\\\\**"):
        for marker in (b"*", b"**", b""):
            k.answer("emphasis", "is_exact_marker_end", w.is_exact_marker_end(t, marker), t, marker)
            k.model("emphasis", "try_trim_prev_emphasis_marker", lambda b: w.try_trim_prev_emphasis_marker(b, marker), t, marker)


    for t in (b"", b"a", b"a ", b"*b*", b"**b**", b"**b** ", b"a!", b"a\\**"):
        for s in (b"", b" ", b"x", b" x", b"x ", b" x ", b"[x](u)", b"  x", b"\xc2\xa0"):
            for marker in (b"*", b"**"):
                def append(b):
                    em = w.Buf(b.m)
                    em.b += s
                    w.push_emphasis(b, em, marker)
                k.model("emphasis", "push_emphasis", append, t, s, marker, begun=len(s), behind=len(s))
                if t in (b"", b"a") and s == b"x":
                    kids = [t] if t else []
                    k.rust("emphasis", "push_emphasis", k.written(el("p", *kids, el("b" if len(marker) == 2 else "i", s))), append, t, s, marker,
                           begun=len(s), behind=len(s))


def table(k):
    w = k.w
    for t in (b"", b"a", b"<br>", b"a<br>", b"a<br> ", b"a<br><br>", b"a <br> <br>", b"\\<br>", b"\\\\<br>", b"\\\\\\<br><br>", b"br>", b"a  "):
        k.answer("table", "ends_with_cell_break", w.ends_with_cell_break(t), t)
        k.answer("table", "trim_trailing_cell_break", len(k.measure(t, 0, w.trim_trailing_cell_break)[0]), t)
        for lb in (b"<br>", b"<br><br>"):
            k.model("table", "add_cell_block_break", lambda b: w.add_cell_block_break(b, lb), t, lb)
    for t in (b"", b"a", b"|", b"a|b", b"\\|", b"\\\\|", b"||", b"|\\|\\\\||", b"a\\", b"`|`"):
        k.model("table", "escape_table_cell_inplace", w.escape_table_cell, t)


def lists(k):
    w, el = k.w, k.s.el
    for s in NUMBERS:
        k.answer("list", "parse_list_number", w.parse_list_number(s), a=s)
        # a second item without a value has the number after the first
        found = [k.written(el("ol", el("li", "a"), el("li", "b", value=s), start=str(n))).split(b"\n")[1].split(b".")[0] for n in (7, 70)]
        k.answer("list", "parse_list_number", None if found == [b"8", b"71"] else int(found[0]), a=s, rust=True)
    for n in (0, 1, 9, 10, 11, 99, 100, 12345, 99999999, 999999998, 999999999):
        prefix = k.written(el("ol", el("li", "x"), start=str(n)))[:-1]
        k.rust("list", "prefix", prefix, lambda b: b.push(b"%d. " % n), numbers=(ORDERED, 0, n))
        k.model("list", "prefix", lambda b: b.push(b"%d. " % n), b"ab", numbers=(ORDERED | TABLE_CELL, 0, n))
    k.model("list", "prefix", lambda b: b.push(b"4294967295. "), numbers=(ORDERED, 0, 4294967295))
    k.rust("list", "prefix", k.written(el("ul", el("li", "x")))[:-1], lambda b: b.push(b"- "))
    k.model("list", "prefix", lambda b: b.push(b"+ "), b"a", numbers=(TABLE_CELL, 0, 0))
    for t in (b"", b"a\n", b"a\n   ", b" \n a  ", b"   ", b"\n\n"):
        for flags in (0, BLOCKS, ORDERED, ORDERED | BLOCKS):
            for indent, n in ((0, 1), (4, 99), (13, 999999999)):
                def begin(b):
                    w.trim_trailing_space(b)
                    if flags & BLOCKS:
                        b.drain(w.atrim_start_at(b.b))
                    ctx = w.ListCtx(w.Opts(offset=indent), n if flags & ORDERED else None, w.BASE)
                    b.push(b" " * ctx.indent)
                    b.push(ctx.prefix())
                k.model("list", "begin_item", begin, t, numbers=(flags, indent, n))
    indented(k)


BLOCKS_WRITTEN = [b"", b"\n", b"x", b"```\nx\n```\n", b"\n```\n\nx\n  y\n```\n\n", b"a\n\n\nb", b"\n\na", b"a\n\n", b"\xe2\x82\xac\n\xe2\x82\xac"]
ITEM_TEXTS = [  # text, indent, start
    (b"- ", 2, 2), (b"- a", 2, 2), (b"- a\n  ", 2, 2), (b"- a\n ", 2, 2), (b"- a  \n", 2, 2), (b"- \xc2\xa0", 2, 2), (b"a\xe3\x80\x80", 2, 2),
    (b"- a\xe2\x80\x83 \n", 2, 2), (b"", 0, 0), (b"", 3, 5), (b"ab\n", 0, 2), (b"12. \xe2\x82\xac", 4, 5), (b"12. \xe2\x82\xac", 4, 6), (b" ", 4, 9),
]


def indented(k):
    w, el = k.w, k.s.el

    def append(b, block, indent, start, cell):
        b.m.total -= len(block)
        written = w.Buf(b.m)
        written.push(block)
        ctx = w.ListCtx(w.Opts(table_cell=cell), None, w.BASE)
        k.model_writer.write_list_item_indented(b, written, b" " * indent, start, ctx)

    for block in BLOCKS_WRITTEN:
        for t, indent, start in ITEM_TEXTS:
            for cell in (False, True) if len(t) == 3 else (False,):
                k.model("list", "write_list_item_indented", lambda b: append(b, block, indent, start, cell), t, block,
                        numbers=(TABLE_CELL if cell else 0, indent, start), begun=len(block), behind=len(block))
    for content in (b"x", b"x\ny", b"x\n\n  y\n", b"`", b"\xe2\x82\xac"):
        block = k.written(el("pre", content))
        for words in (b"", b"para", b"two words"):
            kids = [words] if words else []
            text = k.written(el("ul", el("li", *kids, el("pre", content))))
            k.rust("list", "write_list_item_indented", text, lambda b: append(b, block, 2, 2, False), b"- " + words, block, numbers=(0, 2, 2),
                   begun=len(block), behind=len(block))


def item_blocks(k):
    """what stands before and behind the children of an item, by the Rust's text of a list with such children"""
    el = k.s.el

    def part(name, text, expected, flags=0):
        kept = len(os.path.commonprefix([text, expected]))

        def write(b):
            b.truncate(kept)
            b.push(expected[kept:])
        k.rust("list_item_blocks", name, expected, write, text, numbers=(flags, 2, 2))

    def items(*kids, more=()):
        return k.written(el("ul", el("li", *kids), *more))

    para, pre, more = el("p", "a"), el("pre", "x"), (el("li", "c"),)
    part("push_rule", b"- a", items("a", el("hr"), para)[:-3])
    part("push_rule", b"- ", items(el("hr"), para)[:-3])
    part("push_block_lead", b"- ", items(para)[:-1], FIRST)
    part("push_block_lead", b"- a", items("a", para)[:-1], FIRST)
    part("push_block_lead", b"- a\n\n", items(para, para)[:-1])
    part("push_block_lead", b"- a\n\n", items(para, pre)[:7], INDENTED)
    part("push_block_lead", b"- ", items(pre)[:2], FIRST | INDENTED)
    part("push_inline_lead", b"- a\n\n", items(para, "b")[:-1])
    part("push_inline_lead", b"- a\n\n", items(para, " ", more=more)[:-3], BLANK)
    part("push_inline_lead", b"- ", items("b", para)[:2])
    part("end_item", b"- a\n\n", items(para, more=more)[:-3])
    part("end_item", b"- a\n\n  b", items(para, "b", more=more)[:-3])


def images(k):
    w, s = k.w, k.s
    for attrs in (
        {}, {"src": b""}, {"src": b"u"}, {"src": b" "}, {"src": b"\xc2\xa0"}, {"src": b" u "}, {"srcset": b"a 1x, b 2x"}, {"srcset": b"a, b"},
        {"srcset": b",,"}, {"srcset": b" \n"}, {"srcset": b"\x0ba"}, {"src": b" ", "srcset": b"a,,"}, {"srcset": b",", "data-src": b"d"},
        {"data-src": b"d"}, {"data-src": b"\t"}, {"src": b"u", "srcset": b"a", "data-src": b"d"}, {"src": b"u", "alt": b""},
        {"src": b"u", "alt": b" *a*  b "}, {"src": b"u", "alt": b"1. x"}, {"src": b"u", "title": b""}, {"src": b"u", "title": b"t"},
        {"src": b"u", "title": b'say "t"'}, {"src": b"a b", "alt": b"x", "title": b"y"}, {"src": b"(", "alt": b"]", "title": b"\\"},
        {"alt": b"x", "title": b"y"}, {"src": b"\xe2\x82\xac", "alt": b"\xe2\x82\xac"},
    ):
        sheet = s.encode(("img", list(attrs.items()), []))
        img = s.decode(sheet).nodes[1]
        k.rust("image", "write_img", k.oracle.write(sheet), lambda b: k.model_writer.write_img(b, img), a=sheet)
        for t in (b"a", b"a!", b"a\n"):
            k.model("image", "write_img", lambda b: k.model_writer.write_img(b, img), t, sheet)


def main():
    p = command_line.parser(__doc__)
    p.add_argument("--oracle", required=True, help=command_line.ORACLE)
    p.add_argument("--model", required=True, help=command_line.MODEL)
    args = p.parse_args()
    sys.path[:0] = [args.model, args.oracle]
    import model_sheet
    import model_writer
    from oracle import Oracle
    model_writer.is_utf8 = model_sheet.is_utf8
    with Oracle() as oracle:
        k = Maker(oracle, model_writer, model_sheet)
        for part in (text_utils, heading, code, emphasis, table, lists, item_blocks, images):
            part(k)
    with open(os.path.join(TARGET, "stdin"), "w") as f:
        f.write("".join(line + "\n" for line in k.lines))
    with open(os.path.join(TARGET, "stdout"), "w") as f:
        f.write("%d cases, 0 differ\n" % len(k.lines))
    by_rust = sum(k.lines.values())
    print("%d cases: %d from the Rust, %d from the model" % (len(k.lines), by_rust, len(k.lines) - by_rust))


if __name__ == "__main__":
    main()
