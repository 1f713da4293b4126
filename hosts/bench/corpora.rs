//! The sheets that are timed, and the Rust's tree of the same nodes.
use buzhnael::Sheet;
use dom_query::{Element, NodeData, NodeId, Tree};
use html5ever::{Attribute, LocalName, QualName, namespace_url, ns};
use tendril::StrTendril;

/// The longest sheet that passes question 1.
const LONGEST: usize = 1 << 20;

pub struct Corpus {
    pub name: String,
    pub sheet: Box<dyn Fn() -> Vec<u8>>,
}

const WORDS: [&str; 12] =
    ["mast", "sector", "blank", "range", "3 nm", "gain", "the display", "port", "starboard", "set", "heading line", "168.5"];

fn words(from: usize, count: usize) -> String {
    let mut out = String::new();
    for i in 0..count {
        if i != 0 {
            out.push(' ');
        }
        out.push_str(WORDS[(from + i * 5) % WORDS.len()]);
    }
    out
}

fn row(sheet: &mut Sheet, kind: &str, cells: &[String]) {
    sheet.element("tr", &[], |tr| {
        for cell in cells {
            tr.element(kind, &[], |td| td.text(cell));
        }
    });
}

fn table(sheet: &mut Sheet, from: usize, columns: usize, rows: usize) {
    let cells = |r: usize, n: usize| (0..columns).map(|c| words(from + r + c, n)).collect::<Vec<_>>();
    sheet.element("table", &[], |t| {
        t.element("thead", &[], |head| row(head, "th", &cells(0, 1)));
        t.element("tbody", &[], |body| {
            for r in 1..=rows {
                row(body, "td", &cells(r, 3));
            }
        });
    });
}

fn list(sheet: &mut Sheet, from: usize, name: &str) {
    sheet.element(name, &[], |list| {
        for i in 0..4 {
            list.element("li", &[], |li| {
                li.text(&words(from + i, 6));
                if i == 1 {
                    li.element("ol", &[("start", "9")], |ol| {
                        ol.element("li", &[], |li| li.text(&words(from, 5)));
                        ol.element("li", &[], |li| li.text(&words(from + 1, 5)));
                    });
                }
            });
        }
    });
}

fn paragraph(sheet: &mut Sheet, from: usize) {
    sheet.element("p", &[], |p| {
        p.text(&words(from, 9));
        p.text(" ");
        p.element("b", &[], |b| b.text(&words(from + 1, 2)));
        p.text(", then ");
        p.element("a", &[("href", "https://example.org/rd-4?page=7")], |a| a.text("the manual"));
        p.text(" and ");
        p.element("code", &[], |code| code.text("SECTOR 168"));
        p.text(". ");
        p.text(&words(from + 2, 12));
    });
}

fn heading(sheet: &mut Sheet, n: usize) {
    sheet.element(if n % 2 == 0 { "h2" } else { "h3" }, &[], |h| h.text(&words(n, 3)));
}

fn fixed(sheet: &mut Sheet) {
    sheet.element("pre", &[], |pre| pre.text("SECTOR 168 174\nSECTOR 186 192\nRINGS 6\n"));
}

/// One of the kinds of blocks, by number.
fn block(sheet: &mut Sheet, n: usize) {
    match n % 7 {
        0 => heading(sheet, n),
        1 | 3 => paragraph(sheet, n),
        2 => list(sheet, n, "ul"),
        4 => table(sheet, n, 4, 5),
        5 => fixed(sheet),
        _ => list(sheet, n, "ol"),
    }
}

/// Blocks, by number from 0 on, as many as fit into `bytes`.
fn filled(bytes: usize, block: impl Fn(&mut Sheet, usize)) -> Vec<u8> {
    let mut out = vec![];
    for n in 0.. {
        let mut next = Sheet::new();
        block(&mut next, n);
        let next = next.finish().unwrap();
        if out.len() + next.len() > bytes {
            break;
        }
        out.extend(next);
    }
    out
}

/// 65,535 nodes, the fragment and paragraphs with their texts.
fn wide() -> Vec<u8> {
    let mut sheet = Sheet::new();
    for n in 0..32_767 {
        sheet.element("p", &[], |p| p.text(&words(n, 2)));
    }
    assert_eq!(sheet.nodes(), 65_535);
    sheet.finish().unwrap()
}

/// Elements in one another, with a text before each, 100 open at the innermost.
fn nested(sheet: &mut Sheet, names: &[&str], depth: usize) {
    if depth == 100 {
        return;
    }
    let name = names[depth % names.len()];
    let attributes: &[(&str, &str)] = if name == "a" { &[("href", "rd-4")] } else { &[] };
    sheet.element(name, attributes, |inside| {
        if name != "ul" {
            inside.text(&words(depth, 3));
        }
        nested(inside, names, depth + 1);
    });
}

fn escapes(sheet: &mut Sheet, n: usize) {
    sheet.element("p", &[], |p| p.text(&format!("1. a_b*c[d]e <f> g|h ~i~ `j` \\k ![l] # {n} _m_ [n] **o** <p> _ * [ ]")));
}

fn code(sheet: &mut Sheet, n: usize) {
    if n % 2 == 0 {
        let lines = "fn sector(from: u16, to: u16) -> bool {\n    from < to // `168..174`\n}\n\n".repeat(8);
        sheet.element("pre", &[], |pre| pre.element("code", &[("class", "language-rust")], |code| code.text(&lines)));
    } else {
        sheet.element("p", &[], |p| {
            for _ in 0..6 {
                p.text("see ");
                p.element("code", &[], |code| code.text("sector(168, 174) `x`"));
            }
        });
    }
}

fn long(sheet: &mut Sheet, n: usize) {
    sheet.element("p", &[], |p| p.text(&words(n, 2000)));
}

fn named(name: impl Into<String>, sheet: impl Fn() -> Vec<u8> + 'static) -> Corpus {
    Corpus { name: name.into(), sheet: Box::new(sheet) }
}

/// Nested elements, again and again.
fn deep(name: &str, names: &'static [&'static str]) -> Corpus {
    named(format!("100 deep: {name}"), || filled(LONGEST / 16, |sheet, _| nested(sheet, names, 0)))
}

fn of_blocks(name: &str, block: fn(&mut Sheet, usize)) -> Corpus {
    named(name, move || filled(LONGEST / 4, block))
}

pub fn all(sample: Vec<u8>) -> Vec<Corpus> {
    let mut out = vec![named("sample sheet", move || sample.clone())];
    for kib in [1, 4, 16, 64, 256, 1024] {
        let name = if kib == 1024 { "mixed, 1 MiB".into() } else { format!("mixed, {kib} KiB") };
        out.push(named(name, move || filled(kib << 10, block)));
    }
    out.extend([
        named("65,535 nodes wide", wide),
        deep("wrappers", &["div", "section"]),
        deep("lists", &["ul", "li"]),
        deep("emphasis", &["b", "span", "i", "span"]),
        deep("links", &["a", "span"]),
        of_blocks("tables", |sheet, n| table(sheet, n, 6, 40)),
        of_blocks("escapes", escapes),
        of_blocks("code", code),
        of_blocks("long texts", long),
    ]);
    out
}

fn local(body: &[u8]) -> LocalName {
    LocalName::from(std::str::from_utf8(body).unwrap())
}

fn tendril(body: &[u8]) -> StrTendril {
    StrTendril::from(std::str::from_utf8(body).unwrap())
}

/// The Rust's tree of a sheet that passes the questions.
pub fn tree(sheet: &[u8]) -> Tree {
    let tree = Tree::new(NodeData::Fragment);
    let mut open = vec![tree.root_id()];
    let mut rest = sheet;
    let mut fields = std::iter::from_fn(|| {
        let (head, tail) = rest.split_at_checked(3)?;
        let (body, tail) = tail.split_at(usize::from(u16::from_be_bytes([head[1], head[2]])));
        rest = tail;
        Some((head[0], body))
    })
    .peekable();
    while let Some((tag, body)) = fields.next() {
        let parent: NodeId = *open.last().unwrap();
        match tag {
            1 => {
                let mut attrs: Vec<Attribute> = vec![];
                while let Some((_, name)) = fields.next_if(|f| f.0 == 2) {
                    let (_, value) = fields.next().unwrap();
                    attrs.push(Attribute { name: QualName::new(None, ns!(), local(name)), value: tendril(value) });
                }
                let element = Element::new(QualName::new(None, ns!(html), local(body)), attrs, None, false);
                tree.append_child_data_of(&parent, NodeData::Element(element));
                open.push(tree.get(&parent).unwrap().last_child().unwrap().id);
            }
            4 => tree.append_child_data_of(&parent, NodeData::Text { contents: tendril(body) }),
            5 => tree.append_child_data_of(&parent, NodeData::Comment { contents: tendril(body) }),
            _ => drop(open.pop()),
        }
    }
    tree
}
