//! Random sheets: general trees, scenes that lead to rare branches, damaged bytes, skip lists. As in tools/sheets.py.
use crate::rng::{Rng, pick};

pub type Bytes = Vec<u8>;

const BLOCKS: &[&str] = &["article", "section", "div", "p", "h1", "h2", "h3", "h4", "h5", "h6", "ul", "ol", "dl", "table", "hr"];
const INLINES: &[&str] = &["a", "img", "pre", "code", "strong", "b", "em", "i", "br", "li", "tr", "th", "td"];
const UNKNOWN: &[&str] = &["span", "x", "main", "h7", "P", "Li", "tbody", "thead", "script", "style", "meta", "head", "bold", "é"];
#[rustfmt::skip]
const MARKS: &[&str] = &[
    "\\", "`", "*", "_", "[", "]", "<", ">", "|", "~", "#", "-", "+", "=", "!", ".", ")", "(", "&", "\"", "'", "/", ":", ",", ";", "%", "^",
    "{", "}", "@", "$", "?", "![", "**", "***", "``", "```", "1.", "12)", "1234567890.", "=", "==", "---",
];
#[rustfmt::skip]
const WORDS: &[&str] = &[
    "x", "Fit", "010", "1", "7.", "3)", "a|b", "a\\|b", "\\|", "é", "日本", "\u{a0}", "\u{2003}", "\u{3000}", "\u{85}", "\u{b}", "\u{feff}",
    "\u{1f6a2}", "&amp;", "<br>", "\\<br>", "\\\\", "\0", "\u{7f}", "[x]", "(y)", "a!", "!", "#", "##", "x#", "-", "+", ".", ")", "\u{1680}",
    "\u{202f}", "\u{205f}", "\u{2028}", "\u{2029}", "language-c", "\u{c2}",
];
const BLANKS: &[&str] = &[" ", "  ", "\n", "\t", "\r", "\u{c}", "\r\n", " \n ", "\n\n", "   ", "\u{a0}", "\u{b}"];
#[rustfmt::skip]
const NUMBERS: &[&str] = &[
    "", "1", "0", "9", " +007", "-4", "-", "+", "999999999", "1000000000", "00000000000000000001", "12x", "x", " \t3", "\u{b}3", "99", "100",
    "999999998", "4294967296", "--1", "+-1", "9999999990", "0x1", "１",
];
#[rustfmt::skip]
const URLS: &[&str] = &[
    "u", "", "a b", "a(b", "a(b)c", "a)b(", "a&b", "a\"b", "a\\b", "a<b>", "a\nb", "a\rb\\", "\u{a0}", "é(", "a\u{7f}", "()", ")(", "a b\\<>",
    "\0", "Ât", " ", "\u{2003}",
];
const TITLES: &[&str] = &["t", "", "a \"q\" b", "\"", " x ", "1. a", "`c`", "a\nb", "\" \"", "  "];
const LANGS: &[&str] = &["rust", "", " c++ x", "a$b-_+.#", "é", "\tjs"];
const CLASSES: &[&str] = &["language-c", "x language-", "language", "a language-js! b", "language-\u{e9}x", ""];
const SRCSETS: &[&str] = &["a.png 1x, b.png", " ,", "", "x,,", ", y", "z"];

type Attrs = Vec<(&'static str, &'static str)>;

pub fn field(tag: u8, body: impl AsRef<[u8]>) -> Bytes {
    let body = body.as_ref();
    let mut out = vec![tag, (body.len() >> 8) as u8, body.len() as u8];
    out.extend_from_slice(body);
    out
}

pub fn text(body: impl AsRef<[u8]>) -> Bytes {
    field(4, body)
}

pub fn comment(body: impl AsRef<[u8]>) -> Bytes {
    field(5, body)
}

pub fn with(name: &str, attrs: &[(&str, &str)], kids: &[Bytes]) -> Bytes {
    let mut out = field(1, name);
    for (name, value) in attrs {
        out.extend(field(2, name));
        out.extend(field(3, value));
    }
    kids.iter().for_each(|kid| out.extend_from_slice(kid));
    out.extend(field(6, ""));
    out
}

pub fn el(name: &str, kids: &[Bytes]) -> Bytes {
    with(name, &[], kids)
}

pub struct Gen {
    pub r: Rng,
    /// how many nodes a tree may still get
    left: i32,
}

impl Gen {
    pub fn new(r: Rng) -> Gen {
        Gen { r, left: 0 }
    }

    fn words(&mut self) -> String {
        let r = &mut self.r;
        let mut out = String::new();
        if r.percent(25) {
            out += r.choice(BLANKS);
        }
        for k in 0..r.choice(&[0, 1, 1, 1, 2, 2, 3]) {
            if k > 0 {
                out += r.choice(BLANKS);
            }
            for _ in 0..r.choice(&[1, 1, 1, 2, 3]) {
                out += if r.percent(60) { r.choice(WORDS) } else { r.choice(MARKS) };
            }
        }
        if r.percent(25) {
            out += r.choice(BLANKS);
        }
        out
    }

    fn attrs(&mut self, name: &str) -> Attrs {
        let r = &mut self.r;
        let mut out: Attrs = vec![];
        let mut add = |r: &mut Rng, key, values: &[&'static str], percent| {
            if r.percent(percent) {
                out.push((key, r.choice(values)));
            }
        };
        match name {
            "a" => {
                add(r, "href", URLS, 80);
                add(r, "title", TITLES, 40);
            }
            "img" => {
                add(r, "src", URLS, 70);
                add(r, "srcset", SRCSETS, 40);
                add(r, "data-src", URLS, 40);
                let values = if r.percent(50) { TITLES } else { URLS };
                add(r, "alt", values, 50);
                add(r, "title", TITLES, 40);
            }
            "ol" => add(r, "start", NUMBERS, 70),
            "li" => add(r, "value", NUMBERS, 30),
            "code" => add(r, "class", CLASSES, 40),
            _ => (),
        }
        add(r, "data-lang", LANGS, 10);
        add(r, "data-language", LANGS, 10);
        let other = r.choice(&["id", "class", "href", "start", "é"]);
        add(r, other, WORDS, 10);
        if !out.is_empty() && r.percent(15) {
            out.push((r.choice(&out).0, r.choice(URLS)));
        }
        r.shuffle(&mut out);
        out
    }

    fn element(&mut self, name: &str, kids: Bytes) -> Bytes {
        let attrs = self.attrs(name);
        with(name, &attrs, &[kids])
    }

    fn leaf(&mut self) -> Bytes {
        self.left -= 1;
        match self.r.below(100) {
            0..85 => text(self.words()),
            85..95 => comment(self.words()),
            95..99 => text(self.r.choice(BLANKS)),
            _ => text(""),
        }
    }

    fn nodes(&mut self, depth: i32, n: usize) -> Bytes {
        (0..n).flat_map(|_| self.node(depth)).collect()
    }

    fn some(&mut self, depth: i32, most: usize) -> Bytes {
        let n = self.r.from(0, most);
        self.nodes(depth, n)
    }

    fn node(&mut self, depth: i32) -> Bytes {
        if self.left <= 0 || depth <= 0 || self.r.percent(35) {
            return self.leaf();
        }
        self.left -= 1;
        let name = match self.r.below(100) {
            0..16 => return self.list(depth),
            16..30 => return self.table(depth),
            30..36 => {
                let inside = self.code(depth);
                return self.element("code", inside);
            }
            36..42 => {
                let inside = self.some(depth - 1, 2);
                return self.element("a", inside);
            }
            42..60 => self.r.choice(&["b", "i", "em", "strong"]),
            60..82 => self.r.choice(BLOCKS),
            82..95 => self.r.choice(INLINES),
            _ => self.r.choice(UNKNOWN),
        };
        let inside = self.some(depth - 1, 3);
        self.element(name, inside)
    }

    fn code(&mut self, depth: i32) -> Bytes {
        if self.r.percent(50) {
            const CODES: &[&str] =
                &["`", " `x` ", " a ", "\n a\t\n", "a\nb", "  ", "x``y", "", "\u{2003}\n", " \n", "a\n\u{2003}b"];
            return text(self.r.choice(CODES));
        }
        self.some(depth - 1, 3)
    }

    fn list(&mut self, depth: i32) -> Bytes {
        let mut out = vec![];
        for _ in 0..self.r.from(0, 3) {
            self.left -= 1;
            let item = match self.r.below(100) {
                0..45 => self.some(depth - 1, 3),
                45..80 => self.item(depth - 1),
                _ => {
                    out.extend(self.node(depth - 1));
                    continue;
                }
            };
            out.extend(self.element("li", item));
        }
        let name = self.r.choice(&["ul", "ol"]);
        self.element(name, out)
    }

    /// An item with blocks.
    fn item(&mut self, depth: i32) -> Bytes {
        let mut out = vec![];
        for _ in 0..self.r.from(1, 4) {
            self.left -= 1;
            let made = match self.r.below(100) {
                0..25 => {
                    let inside = text(self.r.choice(&["a", "a\n\nb\n", "", "\n", "```", "x\u{2003}\n", "é"]));
                    self.element("pre", inside)
                }
                25..40 => {
                    let inside = if self.r.percent(80) { vec![] } else { self.leaf() };
                    self.element("hr", inside)
                }
                40..60 => {
                    let (name, inside) = (self.r.choice(&["p", "h2", "h5", "table", "dl"]), self.some(depth - 1, 2));
                    self.element(name, inside)
                }
                60..72 => {
                    let (name, inside) = (self.r.choice(&["div", "section", "article"]), self.wrapped(depth - 1));
                    self.element(name, inside)
                }
                72..80 if depth > 0 => self.list(depth - 1),
                72..80 => self.leaf(),
                _ => self.node(depth - 1),
            };
            out.extend(made);
        }
        out
    }

    fn wrapped(&mut self, depth: i32) -> Bytes {
        let mut out = vec![];
        for _ in 0..self.r.from(0, 3) {
            let made = match self.r.below(100) {
                0..50 => {
                    let (name, inside) = (self.r.choice(&["p", "pre", "h3", "div"]), self.some(depth - 1, 1));
                    self.element(name, inside)
                }
                50..70 => text(self.r.choice(&[" ", "\n", ""])),
                70..80 => comment("c"),
                _ => self.node(depth - 1),
            };
            out.extend(made);
        }
        out
    }

    fn table(&mut self, depth: i32) -> Bytes {
        let width = self.r.from(0, 3);
        let mut out = vec![];
        for k in 0..self.r.from(0, 3) {
            let mut row = vec![];
            for _ in 0..if self.r.percent(85) { width } else { self.r.from(0, 3) } {
                self.left -= 1;
                let name = if self.r.percent(if k == 0 { 80 } else { 15 }) { "th" } else { "td" };
                let inside = if self.r.percent(60) { self.some(depth - 1, 2) } else { self.leaf() };
                row.extend(self.element(name, inside));
                if self.r.percent(10) {
                    row.extend(self.leaf());
                }
            }
            let mut tr = self.element("tr", row);
            if self.r.percent(20) {
                let name = self.r.choice(&["tbody", "thead", "div", "script"]);
                tr = self.element(name, tr);
            }
            out.extend(tr);
            if self.r.percent(10) {
                out.extend(self.node(depth - 1));
            }
        }
        self.element("table", out)
    }

    pub fn sheet(&mut self) -> Bytes {
        if self.r.percent(60) {
            let mut out = self.scene();
            if self.r.percent(33) {
                out.extend(self.scene());
            }
            return out;
        }
        self.left = self.r.choice(&[2, 4, 6, 8, 12, 24]);
        let (depth, n) = (self.r.choice(&[1, 2, 3, 4, 5, 9]), self.r.choice(&[1, 1, 2, 3]));
        self.nodes(depth, n)
    }

    fn inline(&mut self) -> Bytes {
        pick!(self.r; text(self.words()), el("b", &[text("B")]), el("br", &[]), el("code", &[text("c")]), el("span", &[text("s")]),
            comment("k"), vec![])
    }

    /// Digits, and a point behind them in another text.
    fn digits(&mut self) -> Bytes {
        let start = text(self.r.choice(&["1", "12", "x 1", "123456789", "1234567890", " 7", "a\n3", "- 4", ""]));
        let point = text(self.r.choice(&[".", ")", ". a", ") ", ".a", ","]));
        let point = el(self.r.choice(&["span", "i", "p"]), &[point]);
        if self.r.percent(50) {
            return el(self.r.choice(&["p", "li", "div", "td"]), &[start, point]);
        }
        self.list_of(&[start, point])
    }

    fn bang(&mut self) -> Bytes {
        let href = self.r.choice(&["u", "(", "a b"]);
        let link = with("a", &[("href", href)], &[text(self.r.choice(&["x", ""]))]);
        let mut out = pick!(self.r; text("Wow!"), text("!"), el("b", &[text("a!")]));
        out.extend(pick!(self.r; link, el(self.r.choice(&["b", "i", "span"]), &[link]), el("b", &[text("[x"), link])));
        out
    }

    fn list_of(&mut self, kids: &[Bytes]) -> Bytes {
        let mut number =
            |key, percent| -> Attrs { if self.r.percent(percent) { vec![(key, self.r.choice(NUMBERS))] } else { vec![] } };
        let (start, value) = (number("start", 50), number("value", 30));
        let more = pick!(self.r; vec![], el("li", &[text("z")]), self.leaf());
        with(self.r.choice(&["ul", "ol"]), &start, &[with("li", &value, kids), more])
    }

    fn nested_list(&mut self) -> Bytes {
        let first = pick!(self.r; text("A"), text(" "), el("b", &[]), comment("c"), self.list_of(&[text("q")]));
        let behind = self.inline();
        let inner = self.list_of(&[first, behind]);
        let (before, behind) = (self.inline(), self.inline());
        let first = pick!(self.r; text("A"), text("A "), text(""), el("p", &[text("P")]), el("b", &[text("B")]));
        self.list_of(&[before, first, inner, behind])
    }

    fn emphasis(&mut self) -> Bytes {
        const NAMES: &[&str] = &["b", "strong", "i", "em"];
        let (a, b) = (self.r.choice(NAMES), self.r.choice(NAMES));
        let one = if self.r.percent(10) {
            el(b, &[text("n")])
        } else {
            text(self.r.choice(&["A", " A", "A ", "\\", "*", "A\\", "\u{2003}", "", " "]))
        };
        let between = pick!(self.r; vec![], text(" "), text("\n"), text("  "), text("x"), comment("c"));
        let two = pick!(self.r; text("B"), text(" B "), text("["), text("\u{a0}"), el(a, &[text("m")]), with("a", &[("href", "u")], &[text("l")]));
        [el(a, &[one]), between, el(b, &[two])].concat()
    }

    fn picture(&mut self) -> Bytes {
        let mut attrs: Attrs = vec![];
        for (key, values) in [
            ("src", &["s", "", " ", "\u{3000}"][..]),
            ("srcset", SRCSETS),
            ("data-src", &["d", " "]),
            ("alt", TITLES),
            ("title", TITLES),
        ] {
            if self.r.percent(50) {
                attrs.push((key, self.r.choice(values)));
            }
        }
        with("img", &attrs, &[])
    }

    fn linked_picture(&mut self) -> Bytes {
        let mut inside = vec![];
        for _ in 0..self.r.from(1, 4) {
            inside.push(pick!(self.r; self.picture(), el("br", &[]), el("p", &[text("x")]), el("li", &[text("y")]), self.list_of(&[text("z")]),
                el("pre", &[text("a  b\n`c`")]), el("pre", &[]),
                el("table", &[el("tr", &[el("td", &[text("1")]), el("td", &[text("2")])])]),
                el("code", &[text("a\nb")]), el("h2", &[text("h #")]), text(self.words()), el("hr", &[]), el("b", &[text("b")])));
        }
        inside.push(self.picture());
        let mut attrs = vec![("href", self.r.choice(URLS))];
        if self.r.percent(40) {
            attrs.push(("title", self.r.choice(TITLES)));
        }
        with("a", &attrs, &inside)
    }

    fn code_block(&mut self) -> Bytes {
        let class = if self.r.percent(66) { vec![("class", self.r.choice(CLASSES))] } else { vec![] };
        let code = with("code", &class, &[text(self.r.choice(&["x", "a\nb", "```", "`"]))]);
        let lang = pick!(self.r; vec![], vec![], vec![("data-lang", self.r.choice(LANGS))],
            vec![("data-language", self.r.choice(LANGS)), ("data-lang", "z")]);
        let own = if self.r.percent(50) { &lang[..] } else { &[] };
        let mut pre = with("pre", own, &[text(self.r.choice(&["", "t", "\n"])), code]);
        for _ in 0..self.r.from(0, 4) {
            let own = if self.r.percent(33) { &lang[..] } else { &[] };
            pre = with(self.r.choice(&["div", "b", "p", "section"]), own, &[pre]);
        }
        pre
    }

    fn code_spans(&mut self) -> Bytes {
        const CODES: &[&str] = &["x", "`", "``a", " a ", " ", "", "a ", "\n a \n", "\t\n", "a\u{2003}\nb", "\u{a0}a\nb"];
        let mut out = vec![];
        for _ in 0..self.r.from(1, 3) {
            let behind = pick!(self.r; vec![], el("br", &[]), [el("br", &[]), el("br", &[])].concat(), el("script", &[text("s")]),
                el("b", &[text(" y")]), comment("c"));
            let made = if self.r.percent(50) { el("code", &[text(self.r.choice(CODES)), behind]) } else { self.inline() };
            out.extend(made);
        }
        out
    }

    /// An item whose start is stale behind a trim of the whole text, and a code block behind it.
    fn stale_cut(&mut self) -> Bytes {
        let anchor = el("a", &[text(self.r.choice(&["\u{e9}", "x", "\u{65e5}", "xyz", ""]))]);
        const WHITE: &[&str] =
            &["\u{3000}\u{3000}", "\u{a0}\u{a0}", "\u{2003}", "\u{3000}x", " ", "\u{2003}\u{3000}\u{a0}", "\u{a0}"];
        let blanks = text(self.r.choice(WHITE));
        let pre = el("pre", &[text(self.r.choice(&["q", "q\n\nr", ""]))]);
        let behind = pick!(self.r; vec![], el("hr", &[]), el("p", &[text("e")]));
        let inner = el(self.r.choice(&["ul", "ol"]), &[el("li", &[anchor, blanks, pre, behind])]);
        let before = text(self.r.choice(&["", "o"]));
        let inner = el(self.r.choice(&["b", "i", "span", "div"]), &[inner]);
        self.list_of(&[before, inner])
    }

    fn cell_breaks(&mut self) -> Bytes {
        let mut cell = vec![];
        for _ in 0..self.r.from(0, 3) {
            cell.push(pick!(self.r; text("a"), text("\\"), text("a "), text("|"), text("\\|"), text("x|y"), el("br", &[]), el("p", &[text("p")]),
                el("ul", &[el("li", &[text("i")])]), el("hr", &[]), el("h3", &[text("h #")]), el("pre", &[text("a|b")]),
                self.list_of(&[text("l"), el("p", &[text("m")])]),
                el("ol", &[el("li", &[el("hr", &[]), text("k"), el("hr", &[]), text("j")])])));
        }
        let first = el(self.r.choice(&["th", "td"]), &cell);
        let row = el("tr", &[first, el(self.r.choice(&["th", "td"]), &[text("b")])]);
        let (one, rest) = cell.split_at(cell.len().min(1));
        let more =
            pick!(self.r; vec![], el("tr", &[el("td", one), el("td", rest)]), el("tr", &[]), el("tr", &[el("td", &[text("1")])]));
        el("table", &[row, more])
    }

    fn item_blocks(&mut self) -> Bytes {
        let mut kids = vec![];
        for _ in 0..self.r.from(1, 5) {
            kids.push(pick!(self.r; el("p", &[text("p")]), el("pre", &[text("a\n\nb")]), el("hr", &[]), el("h2", &[text("h #")]), text(self.words()),
                text(" "), self.list_of(&[text("n")]), el("div", &[el("p", &[text("w")]), text(" "), el("pre", &[text("v")])]),
                el("div", &[text("t")]), el("script", &[text("s")]), comment("c"), el("br", &[]),
                el("table", &[el("tr", &[el("td", &[text("c")])])]), el("b", &[text("e")]), el("a", &[text("k")])));
        }
        self.list_of(&kids)
    }

    fn scene(&mut self) -> Bytes {
        let mut made = pick!(self.r; self.digits(), self.bang(), self.nested_list(), self.emphasis(), self.picture(), self.linked_picture(),
            self.code_block(), self.code_spans(), self.stale_cut(), self.cell_breaks(), self.item_blocks());
        if self.r.percent(30) {
            let before = if self.r.percent(50) { vec![] } else { text(self.words()) };
            let behind = if self.r.percent(50) { vec![] } else { self.leaf() };
            made = [before, made, behind].concat();
        }
        for _ in 0..self.r.choice(&[0, 0, 0, 1, 1, 2]) {
            made = pick!(self.r; el(self.r.choice(&["div", "b", "i", "span", "p", "h1", "a"]), &[made]), self.list_of(&[made]),
                el("table", &[el("tr", &[el("td", &[made]), el("td", &[text("x")])])]), with("a", &[("href", "u")], &[made]));
        }
        made
    }

    /// None is the default list; bytes are a run of fields.
    pub fn skips(&mut self) -> Option<Bytes> {
        if self.r.percent(50) {
            return None;
        }
        let n = self.r.choice(&[0, 1, 1, 2, 3]);
        Some(
            (0..n)
                .flat_map(|_| field(7, pick!(self.r; self.r.choice(BLOCKS), self.r.choice(INLINES), self.r.choice(UNKNOWN))))
                .collect(),
        )
    }

    /// A sheet, a start and a skip list, of which some question may say no.
    pub fn damaged(&mut self) -> (Bytes, u32, Option<Bytes>) {
        let mut s = self.sheet();
        let mut skips = self.skips();
        let mut start = 0;
        match self.r.below(100) {
            0..45 => {
                for _ in 0..self.r.from(1, 2) {
                    if s.is_empty() {
                        continue;
                    }
                    let k = self.r.below(s.len());
                    let any = self.r.below(256) as u8;
                    match self.r.below(4) {
                        0 | 1 => s[k] = self.r.choice(&[0, 1, 2, 3, 4, 5, 6, 7, 65, 128, 0xC0, 0xE2, 0xF5, 255, any]),
                        2 => drop(s.remove(k)),
                        _ => s.insert(k, any),
                    }
                }
            }
            45..60 => s.truncate(self.r.below(s.len() + 1)),
            60..75 => {
                const BODIES: &[&[u8]] = &[
                    b"",
                    b"p",
                    b"blockquote",
                    b"\xed\xa0\x80",
                    b"\xf4\x90\x80\x80",
                    b"\xc3\xa9",
                    b"\xe0\x9f\x80",
                    b"\xf0\x8f\x80\x80",
                    b"\xc1\x80",
                    b"\xf4\x8f\xbf\xbf",
                    b"\xe2\x80",
                ];
                let n = self.r.from(0, 4);
                s = (0..n).flat_map(|_| field(self.r.from(1, 6) as u8, self.r.choice(BODIES))).collect();
            }
            75..80 => {
                let n = self.r.choice(&[99, 100, 101, 102]);
                s = [field(1, "b").repeat(n), field(6, "").repeat(n)].concat();
            }
            80..85 => s.extend(el("blockquote", &[])),
            85..92 => start = self.r.choice(&[0, 1, 2, 5, 100, 65535, u32::MAX]),
            _ => {
                skips = Some(
                    pick!(self.r; b"\x07\0\0".to_vec(), field(7, "p").repeat(16), field(7, "p").repeat(17), field(7, "x".repeat(64)),
                    field(7, "x".repeat(65)), b"\x07\0".to_vec(), field(1, "p"), field(7, b"\xff"), b"\x07\0\x01p\x07\0\x02a".to_vec()),
                )
            }
        }
        (s, start, skips)
    }
}
