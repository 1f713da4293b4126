//! Random plain sheets, as document 01 says them: blocks, one text in each, lists and tables. As in tools/plain.py.
use crate::rng::Rng;
use crate::trees::{Bytes, el, text, with};

const PUNCTUATION: &str = "!\"#$%'()*+,-./:;<=>?@[\\]^_`{|}~";
const SEPARATORS: &[&str] =
    &[" ", " ", " ", "  ", "\t", "\n", "\r", "\r\n", "\u{c}", " \n ", "\t \u{c}", "    ", "\n\n", " \t\r\n\u{c} "];
#[rustfmt::skip]
const CATCHES: &[&str] = &[
    "--", "---", "- - -", "***", "* * *", "___", "===", "==", "##", "#######", "```", "````", "~~~", "``` x", "1.", "1)", "0.", "123456789.",
    "1234567890.", "12.5", "1. 2.", "1) -", "-x", "#x", ">x", "=x", "x=", "x #", "x ##", "x \\#", "# x #", "- x", "+ x", "> x", "1. x", "![",
    "![x](y)", "[x](y)", "[x]: /y", "[x][y]", "[ ] x", "<a>", "</a>", "<!-- x -->", "<?x", "<!X", "<http://x.y>", "www.x.y", "**x**", "_x_",
    "~~x~~", "`x`", "x\\", "\\\\", "\\*", "\\|", "\\\\|", "\\\\\\|", "x|y", "x\\|y", "|x|", "| x |", "| - |", "---|---", ":-:", "\\`", "x!", "! [x]",
    "--- x", "=== x", "<br>", "\\<br>", "\u{feff}", "\u{200b}", "é", "日本", "🛥", "٣.", "１.", "\u{1}", "\u{1f}", "\u{7f}", "007", "\u{10ffff}",
];
#[rustfmt::skip]
const FIXED: &[&str] = &[
    "", "", " ", "   ", "\t", "x", "x  ", "\tx", "    x", "```", "````", " ```", "    ```", "``` x", "x```", "~~~", "`", "``", "` `` ```", "- x", "1. x",
    "# x", "---", "| x |", "&amp;", "<pre>", "\\", "x\\", "\u{b}", "\u{c}", "```\u{c}", "\u{2028}", "\u{85}", "\u{a0}```", "é", "🛥", "x\u{3000}",
];
const BLANKS: &[char] = &['\u{85}', '\u{a0}', '\u{1680}', '\u{2003}', '\u{2028}', '\u{202f}', '\u{205f}', '\u{3000}'];
/// Attributes and the list numbers that they say.
#[rustfmt::skip]
const NUMBERS: &[(&str, Option<u32>)] = &[
    ("0", Some(0)), ("1", Some(1)), ("2", Some(2)), ("9", Some(9)), ("99", Some(99)), ("999", Some(999)), ("99999999", Some(99_999_999)),
    ("999999998", Some(999_999_998)), ("999999999", Some(999_999_999)), ("1000000000", Some(999_999_999)), ("-1", Some(0)), ("-", None),
    ("+", None), (" +007", Some(7)), ("", None), ("x", None), ("7x", Some(7)), ("3.5", Some(3)), ("--1", None), ("000000000000000012", Some(12)),
    ("\t\n\u{c}\r 12", Some(12)), ("\u{b}7", None), ("７", None), ("5\0", Some(5)), ("-999999999999", Some(0)), ("4294967296", Some(999_999_999)),
];
const LARGEST: u32 = 999_999_999;

fn char_of(r: &mut Rng, of: &str) -> char {
    of.chars().nth(r.below(of.chars().count())).unwrap()
}

fn word(r: &mut Rng) -> String {
    match r.below(8) {
        0 | 1 => (0..r.from(1, 4)).map(|_| char_of(r, "abcxyzABC019")).collect(),
        2 | 3 => (0..r.from(1, 4)).map(|_| if r.percent(6) { 'a' } else { char_of(r, PUNCTUATION) }).collect(),
        4 => {
            let at = r.below(3);
            let mark = char_of(r, PUNCTUATION);
            let mut out = String::from("xy");
            out.insert(at, mark);
            out
        }
        5 => char_of(r, "#=-+*_>~`|\\.:!").to_string().repeat(r.from(1, 8)) + r.choice(&["", "", "x", "."]),
        6 => {
            let digits: String = (0..r.from(1, 11)).map(|_| char_of(r, "0123456789")).collect();
            digits + r.choice(&[".", ")", "", ".x", ")x", "..", "-"])
        }
        _ => r.choice(CATCHES).split(' ').next().unwrap().to_string(),
    }
}

/// A text with a word, no NUL, VT or `&`, and no blank outside ASCII at either end.
fn words(r: &mut Rng, most: usize) -> Bytes {
    let mut all: Vec<String> = vec![];
    for _ in 0..if r.percent(66) { r.from(1, most) } else { 1 } {
        if r.percent(80) {
            all.push(word(r));
        } else {
            all.extend(r.choice(CATCHES).split(' ').map(str::to_string));
        }
    }
    let mut out = String::new();
    if r.percent(16) {
        out += r.choice(SEPARATORS);
    }
    for (k, word) in all.iter().enumerate() {
        if k > 0 {
            out += r.choice(SEPARATORS);
            if r.percent(5) {
                out.push(r.choice(BLANKS));
            }
        }
        out += word;
    }
    if r.percent(16) {
        out += r.choice(SEPARATORS);
    }
    text(out)
}

fn fixed(r: &mut Rng) -> Bytes {
    let n = r.choice(&[1, 1, 2, 3, 5]);
    let lines: Vec<String> = (0..n)
        .map(|_| {
            if r.percent(75) { r.choice(FIXED).to_string() } else { (0..r.from(0, 8)).map(|_| char_of(r, "`~ \tx\\&|-")).collect() }
        })
        .collect();
    text(lines.join("\n") + &"\n".repeat(r.choice(&[0, 0, 1, 1, 2, 3])))
}

fn list(r: &mut Rng, levels: usize) -> Bytes {
    let name = r.choice(&["ul", "ol"]);
    let (start, mut due) = if name == "ol" && r.percent(50) { r.choice(NUMBERS) } else { ("", None) };
    let attrs: &[(&str, &str)] = &[("start", start)];
    let own = r.choice(&[0, 0, 30]);
    let mut items = vec![];
    for k in 0..r.choice(&[1, 1, 2, 2, 3, 4]) {
        let mut value: Vec<(&str, &str)> = vec![];
        let mut number = if k == 0 { Some(due.unwrap_or(1)) } else { due };
        if r.percent(own) {
            let (written, says) = r.choice(NUMBERS);
            value.push(("value", written));
            number = says.or(number);
        }
        match number {
            None if name == "ol" => break,
            None => (),
            Some(n) => due = if n < LARGEST { Some(n + 1) } else { None },
        }
        let mut inside = vec![words(r, 4)];
        if levels > 1 && r.percent(33) {
            for _ in 0..r.choice(&[1, 1, 1, 2, 3]) {
                inside.push(list(r, levels - 1));
            }
        }
        items.push(with("li", &value, &inside));
    }
    with(name, if start.is_empty() { &[] } else { attrs }, &items)
}

fn deep_list(r: &mut Rng, levels: usize) -> Bytes {
    let mut inner = vec![];
    for _ in 0..levels {
        inner = el(r.choice(&["ul", "ol"]), &[el("li", &[words(r, 1), inner])]);
    }
    inner
}

fn table(r: &mut Rng) -> Bytes {
    let width = r.choice(&[1, 1, 2, 2, 3, 4]);
    let style = r.below(4);
    let n = r.choice(&[1, 1, 2, 3, 4]);
    let mut rows: Vec<Bytes> = (0..n)
        .map(|k| {
            let cells: Vec<Bytes> = (0..width)
                .map(|_| {
                    let heading = match style {
                        0 => false,
                        1 => k == 0,
                        2 => true,
                        _ => r.percent(50),
                    };
                    el(if heading { "th" } else { "td" }, &[words(r, 3)])
                })
                .collect();
            el("tr", &cells)
        })
        .collect();
    let mut parts = vec![];
    while !rows.is_empty() {
        if r.percent(12) {
            parts.push(el(r.choice(&["thead", "tbody"]), &[]));
        }
        if r.percent(50) {
            parts.push(rows.remove(0));
        } else {
            let taken: Vec<Bytes> = rows.drain(..r.from(1, rows.len())).collect();
            parts.push(el(r.choice(&["thead", "tbody"]), &taken));
        }
    }
    el("table", &parts)
}

fn block(r: &mut Rng, levels: usize) -> Bytes {
    match r.below(16) {
        0..3 => el("p", &[words(r, 6)]),
        3..5 => el(r.choice(&["h1", "h2", "h3", "h4", "h5", "h6"]), &[words(r, 6)]),
        5 => el("hr", &[]),
        6..8 => el("pre", &[fixed(r)]),
        8..10 => table(r),
        10..14 => {
            let levels = r.choice(&[1, 2, 3, 5]);
            list(r, levels)
        }
        14 if r.percent(4) => {
            let levels = r.from(5, 45);
            deep_list(r, levels)
        }
        _ => {
            let n = if levels > 0 { r.choice(&[0, 1, 1, 2, 3]) } else { 0 };
            let inside: Vec<Bytes> = (0..n).map(|_| block(r, levels - 1)).collect();
            el(r.choice(&["div", "section", "article"]), &inside)
        }
    }
}

pub fn sheet(r: &mut Rng) -> Bytes {
    let n = r.choice(&[0, 1, 1, 1, 2, 2, 3, 4]);
    (0..n).flat_map(|_| block(r, 3)).collect()
}

/// A short text in every kind of block that holds one.
pub fn everywhere(body: &str) -> Bytes {
    let t = || text(body);
    let li = |kids: &[Bytes]| el("li", kids);
    [
        el("p", &[t()]),
        el("h2", &[t()]),
        el("ul", &[li(&[t(), el("ol", &[li(&[t()]), li(&[t()])]), el("ul", &[li(&[t()])])])]),
        el("table", &[el("tr", &[el("th", &[t()]), el("th", &[t()])]), el("tr", &[el("td", &[t()]), el("td", &[text("x")])])]),
        with("ol", &[("start", "7")], &[li(&[t()])]),
        el("table", &[el("tr", &[el("td", &[t()])])]),
        el("pre", &[t()]),
        el("p", &[el("b", &[t()]), el("code", &[t()]), with("a", &[("href", body), ("title", body)], &[t()])]),
        el("p", &[t(), with("img", &[("src", body), ("alt", body)], &[]), t()]),
    ]
    .concat()
}

/// The characters of the short texts.
pub fn alphabet() -> Vec<char> {
    PUNCTUATION.chars().chain("&a1 \n".chars()).collect()
}
