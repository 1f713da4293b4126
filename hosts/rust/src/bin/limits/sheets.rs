//! The sheets at the limits, and just beyond them.
use buzhnael::Sheet;

/// The most bytes and nodes of a sheet, and the most elements open.
const BYTES: usize = 1_048_576;
const NODES: usize = 65_535;
const OPEN: usize = 100;
/// The most bytes of a field's body.
const BODY: usize = 65_535;

/// A sheet that is tried, with the answer that it must have: 0 for a text, else the question that says no.
pub struct Case {
    pub name: &'static str,
    pub make: fn() -> Sheet,
    /// The length of the text memory, where it is not found by trying.
    pub room: Option<usize>,
    pub number: u8,
}

const fn written(name: &'static str, make: fn() -> Sheet) -> Case {
    Case { name, make, room: None, number: 0 }
}

const fn refused(name: &'static str, make: fn() -> Sheet, number: u8) -> Case {
    Case { name, make, room: Some(0), number }
}

const fn one_byte(name: &'static str, make: fn() -> Sheet, number: u8) -> Case {
    Case { name, make, room: Some(1), number }
}

pub const CASES: &[Case] = &[
    written("an empty sheet", Sheet::new),
    written("100 open: div, section", || nested(&["div", "section"], OPEN)),
    written("100 open: b, span, i, span", || nested(&["b", "span", "i", "span"], OPEN)),
    written("100 open: b, i", || nested(&["b", "i"], OPEN)),
    written("100 open: a with href", || nested(&["a"], OPEN)),
    written("100 open: ul, li", || nested(&["ul", "li"], OPEN)),
    written("100 open: ul, li, each item with p", || nested_items(OPEN)),
    written("100 open: ol, li, p", || nested(&["ol", "li", "p"], OPEN)),
    written("100 open: table, tr, td", || nested(&["table", "tr", "td"], OPEN)),
    written("100 open: table, tr, td with ul, li", || nested(&["ul", "li", "table", "tr", "td"], OPEN)),
    written("100 open: h1", || nested(&["h1"], OPEN)),
    written("100 open: pre", || nested(&["pre"], OPEN)),
    written("100 open: code", || nested(&["code"], OPEN)),
    written("100 open: div, b, ul, li, h1, table, tr, td, i, p", || {
        nested(&["div", "b", "ul", "li", "h1", "table", "tr", "td", "i", "p"], OPEN)
    }),
    written("100 open: a with href, the last with img", || nested_images(&["a"], OPEN)),
    written("100 open: a, b, the last with img", || nested_images(&["a", "b"], OPEN)),
    written("100 open: a, ul, li, the last with img", || nested_images(&["a", "ul", "li"], OPEN)),
    refused("101 open: div, section", || nested(&["div", "section"], OPEN + 1), 5),
    refused("101 open: ul, li", || nested(&["ul", "li"], OPEN + 1), 5),
    written("65,535 nodes: texts", || texts(NODES - 1)),
    written("65,535 nodes: p with text", || repeated("p", NODES)),
    written("65,535 nodes: b with text", || repeated("b", NODES)),
    written("65,535 nodes: a list's items", || inside("ul", "li")),
    written("65,535 nodes: rows of one cell", || rows(NODES)),
    written("65,535 nodes: cells of one row", || one_row(NODES)),
    written("65,535 nodes: p with text in 99 table, tr, td", || wide(&["table", "tr", "td"].repeat(33), "p")),
    written("65,535 nodes: p with text in 98 ul, li", || wide(&["ul", "li"].repeat(49), "p")),
    written("65,535 nodes: b with text in 98 ul, li", || wide(&["ul", "li"].repeat(49), "b")),
    written("65,535 nodes: b with text in 99 a", || wide(&["a"; 99], "b")),
    refused("65,536 nodes: texts", || texts(NODES), 5),
    written("1,048,576 bytes: words", || filled(&[], "word ", BYTES)),
    written("1,048,576 bytes: stars", || filled(&[], "*", BYTES)),
    written("1,048,576 bytes: one word", || filled(&[], "x", BYTES)),
    written("1,048,576 bytes: spaces", || filled(&[], " ", BYTES)),
    written("1,048,576 bytes: a comment's", || filled_comments(BYTES)),
    written("1,048,576 bytes: lines in pre", || filled(&["pre"], "line\n", BYTES)),
    written("1,048,576 bytes: ticks in code", || filled(&["code"], "`", BYTES)),
    written("1,048,576 bytes: words in a cell", || filled(&["table", "tr", "td"], "a|b ", BYTES)),
    written("1,048,576 bytes: words in 100 b, span, i, span", || filled(&["b", "span", "i", "span"].repeat(25), "word ", BYTES)),
    written("1,048,576 bytes: words in 100 a", || filled(&["a"; OPEN], "word ", BYTES)),
    written("1,048,576 bytes: lines in pre in 98 ul, li", || {
        filled(&[["ul", "li"].repeat(49), vec!["pre"]].concat(), "line\n", BYTES)
    }),
    refused("1,048,577 bytes: words", || filled(&[], "word ", BYTES + 1), 1),
    one_byte("the text x, one byte of text memory", || word("x"), 0),
    one_byte("the text xy, one byte of text memory", || word("xy"), 10),
];

/// Every `a` has a destination, since without one it is no link.
fn attributes(name: &str) -> &'static [(&'static str, &'static str)] {
    if name == "a" { &[("href", "u")] } else { &[] }
}

/// Elements within one another, and in the last what `inside` adds.
fn nest(sheet: &mut Sheet, names: &[&str], inside: &dyn Fn(&mut Sheet)) {
    match names.split_first() {
        None => inside(sheet),
        Some((name, rest)) => {
            sheet.element(name, attributes(name), |s| nest(s, rest, inside));
        }
    }
}

/// So many elements open, by these names in turn, and a text in the last.
fn nested(names: &[&str], open: usize) -> Sheet {
    let names: Vec<_> = names.iter().copied().cycle().take(open).collect();
    let mut sheet = Sheet::new();
    nest(&mut sheet, &names, &|s| {
        s.text("x");
    });
    sheet
}

/// Lists in lists: each item holds a `p` and then the next list.
fn item(sheet: &mut Sheet, lists: usize) {
    sheet.element("p", &[], |p| p.text("x"));
    if lists > 0 {
        nest(sheet, &["ul", "li"], &|li| item(li, lists - 1));
    }
}

/// An even number of elements open: a `div`, the lists and the last `p`.
fn nested_items(open: usize) -> Sheet {
    let mut sheet = Sheet::new();
    sheet.element("div", &[], |div| item(div, (open - 2) / 2));
    sheet
}

/// So many elements open, by these names in turn, the last a picture, so that each link is one round what it holds.
fn nested_images(names: &[&str], open: usize) -> Sheet {
    let names: Vec<_> = names.iter().copied().cycle().take(open - 1).collect();
    let mut sheet = Sheet::new();
    nest(&mut sheet, &names, &|a| {
        a.element("img", &[("src", "s"), ("alt", "x")], |_| ());
    });
    sheet
}

fn texts(count: usize) -> Sheet {
    let mut sheet = Sheet::new();
    for _ in 0..count {
        sheet.text("x ");
    }
    sheet
}

/// Elements with a text each, until the sheet has `nodes` nodes, which is odd.
fn repeated(name: &str, nodes: usize) -> Sheet {
    let mut sheet = Sheet::new();
    while sheet.nodes() < nodes {
        sheet.element(name, attributes(name), |e| e.text("x"));
    }
    sheet
}

/// Elements within one another, and in the last elements with a text each, until no two nodes more may be.
fn wide(names: &[&str], name: &str) -> Sheet {
    let mut sheet = Sheet::new();
    nest(&mut sheet, names, &|s| {
        while s.nodes() + 2 <= NODES {
            s.element(name, &[], |e| e.text("x"));
        }
    });
    while sheet.nodes() < NODES {
        sheet.comment("");
    }
    sheet
}

/// All nodes but one in elements with a text each, in one element; the last is a comment.
fn inside(outer: &str, name: &str) -> Sheet {
    let mut sheet = Sheet::new();
    sheet.element(outer, &[], |s| {
        while s.nodes() < NODES - 1 {
            s.element(name, &[], |e| e.text("x"));
        }
    });
    sheet.comment("");
    sheet
}

/// A table of rows with one cell each, and texts until the sheet has `nodes` nodes.
fn rows(nodes: usize) -> Sheet {
    let mut sheet = Sheet::new();
    sheet.element("table", &[], |table| {
        while table.nodes() + 3 <= nodes {
            nest(table, &["tr", "td"], &|td| {
                td.text("x");
            });
        }
    });
    while sheet.nodes() < nodes {
        sheet.text("x");
    }
    sheet
}

fn one_row(nodes: usize) -> Sheet {
    let mut sheet = Sheet::new();
    nest(&mut sheet, &["table", "tr"], &|tr| {
        while tr.nodes() < nodes {
            tr.element("td", &[], |_| ());
        }
    });
    sheet
}

fn word(text: &str) -> Sheet {
    let mut sheet = Sheet::new();
    sheet.text(text);
    sheet
}

/// The bodies of the fields that together have `bytes` bytes: `piece` again and again, each field as long as may be but the last two.
fn bodies(piece: &str, bytes: usize) -> Vec<String> {
    let mut out = vec![];
    let mut left = bytes;
    while left > 0 {
        // what is left over must still be a field
        let field = if left > BODY + 6 {
            BODY + 3
        } else if left > BODY + 3 {
            left - 3
        } else {
            left
        };
        out.push(piece.chars().cycle().take(field - 3).collect());
        left -= field;
    }
    out
}

/// A sheet of exactly `bytes` bytes: texts of `piece` in the elements `names`.
fn filled(names: &[&str], piece: &str, bytes: usize) -> Sheet {
    let around: usize =
        names.iter().map(|n| 6 + n.len() + attributes(n).iter().map(|(k, v)| 6 + k.len() + v.len()).sum::<usize>()).sum();
    let mut sheet = Sheet::new();
    let bodies = bodies(piece, bytes - around);
    nest(&mut sheet, names, &|s| {
        for body in &bodies {
            s.text(body);
        }
    });
    sheet
}

fn filled_comments(bytes: usize) -> Sheet {
    let mut sheet = Sheet::new();
    for body in bodies("c", bytes) {
        sheet.comment(&body);
    }
    sheet
}

#[cfg(test)]
mod tests {
    use super::*;

    const OPENS: u8 = 1;
    const CLOSES: u8 = 6;

    /// The most elements open at once.
    fn most_open(sheet: &[u8]) -> usize {
        let (mut at, mut open, mut most) = (0, 0, 0);
        while at < sheet.len() {
            match sheet[at] {
                OPENS => open += 1,
                CLOSES => open -= 1,
                _ => (),
            }
            most = most.max(open);
            at += 3 + usize::from(sheet[at + 1]) * 256 + usize::from(sheet[at + 2]);
        }
        most
    }

    #[test]
    fn sheets_are_what_their_names_say() {
        for case in CASES {
            let made = (case.make)();
            let nodes = made.nodes();
            let sheet = made.finish().unwrap();
            let (said, what) = case.name.split_once(' ').unwrap();
            let Ok(said) = said.replace(',', "").parse::<usize>() else { continue };
            let counted = match what.split([' ', ':']).next() {
                Some("open") => most_open(&sheet),
                Some("nodes") => nodes,
                Some("bytes") => sheet.len(),
                other => panic!("{other:?}"),
            };
            assert_eq!(counted, said, "{}", case.name);
        }
    }
}
