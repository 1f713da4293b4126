//! The call, through the safe function: the quay cases of document 01, the refusals, and every byte of both memories.
use buzhnael::{Answer, Fault, Question, Sheet, Skip, serialize_md, skip_run};

const FILL: u8 = 0xA5;

/// The answer with room for everything that the tests write.
fn call(sheet: &[u8], start: usize, include_node: bool, skip: Skip) -> Result<Vec<u8>, Question> {
    call_with(sheet, start, include_node, skip, 65_535 * 64, 4096)
}

/// The answer, once both memories are seen to be left as it says.
fn call_with(sheet: &[u8], start: usize, include_node: bool, skip: Skip, nodes: usize, text: usize) -> Result<Vec<u8>, Question> {
    let (mut nodes, mut text) = (vec![FILL; nodes], vec![FILL; text]);
    let answer = match serialize_md(sheet, start, include_node, skip, &mut nodes, &mut text) {
        Answer::Written(text) => Ok(text.to_vec()),
        Answer::Refused(question) => Err(question),
    };
    match &answer {
        Ok(written) => {
            assert_eq!(&text[..written.len()], written);
            assert!(text[written.len()..].iter().all(|&b| b == 0));
            assert!(nodes.iter().all(|&b| b == 0));
        }
        Err(Question::TextMemory) => assert!(text.iter().chain(&nodes).all(|&b| b == 0)),
        Err(_) => assert!(text.iter().chain(&nodes).all(|&b| b == FILL)),
    }
    answer
}

fn sheet<R>(inside: impl FnOnce(&mut Sheet) -> R) -> Vec<u8> {
    let mut sheet = Sheet::new();
    inside(&mut sheet);
    sheet.finish().unwrap()
}

/// An element that holds one text.
fn el(sheet: &mut Sheet, name: &str, text: &str) -> usize {
    sheet.element(name, &[], |e| e.text(text))
}

/// The text of what `inside` adds, from node 0 without it.
fn written<R>(inside: impl FnOnce(&mut Sheet) -> R) -> String {
    String::from_utf8(call(&sheet(inside), 0, false, Skip::Default).unwrap()).unwrap()
}

fn list(sheet: &mut Sheet, start: &str, items: &[&str]) -> usize {
    sheet.element("ol", &[("start", start)], |ol| {
        for item in items {
            el(ol, "li", item);
        }
    })
}

fn row_010(sheet: &mut Sheet) {
    sheet.element("table", &[], |table| {
        table.element("tr", &[], |tr| {
            el(tr, "td", "010");
            el(tr, "td", "a|b");
        });
    });
}

fn nested(depth: usize, sheet: &mut Sheet) {
    if depth > 0 {
        sheet.element("b", &[], |b| nested(depth - 1, b));
    }
}

fn link(href: &str) -> String {
    written(|s| s.element("a", &[("href", href)], |a| a.text("x")))
}

#[test]
fn the_empty_sheet() {
    assert_eq!(written(|_| ()), "");
    assert_eq!(call_with(b"", 0, false, Skip::Default, 64, 0), Ok(vec![]));
}

#[test]
fn texts_and_headings() {
    assert_eq!(written(|s| el(s, "p", "1. Fit")), "1\\. Fit");
    assert_eq!(written(|s| el(s, "p", "# 3")), "\\# 3");
    assert_eq!(written(|s| el(s, "h2", "Sector #")), "## Sector \\#");
}

#[test]
fn lists() {
    assert_eq!(written(|s| list(s, "9", &["A", "B"])), "9. A\n10. B");
    for (start, number) in [("-4", "0"), (" +007", "7"), ("999999999", "999999999"), ("1000000000", "999999999"), ("-", "1")] {
        assert_eq!(written(|s| list(s, start, &["A"])), format!("{number}. A"));
    }
    let nested = written(|s| {
        s.element("ul", &[], |ul| {
            ul.element("li", &[], |li| {
                li.text("A");
                list(li, "3", &["B"])
            })
        })
    });
    assert_eq!(nested, "- A\n\n    3. B");
}

#[test]
fn code_and_emphasis() {
    assert_eq!(written(|s| el(s, "code", "`")), "`` ` ``");
    assert_eq!(written(|s| el(s, "pre", "``` x")), "````\n``` x\n````");
    let bold = |s: &mut Sheet| {
        el(s, "b", "A");
        el(s, "b", "B");
    };
    assert_eq!(written(bold), "**AB**");
}

#[test]
fn destinations() {
    assert_eq!(link("a(b"), "[x](<a(b>)");
    assert_eq!(link("a(b)c"), "[x](a(b)c)");
    assert_eq!(link("a&b"), "[x](a&amp;b)");
}

#[test]
fn start_nodes() {
    let s = sheet(|s| assert_eq!(el(s, "p", "x"), 1));
    assert_eq!(call(&s, 0, false, Skip::Default).unwrap(), b"x");
    assert_eq!(call(&s, 0, true, Skip::Default).unwrap(), b"");
    assert_eq!(call(&s, 1, true, Skip::Default).unwrap(), b"\n\nx\n\n");
    assert_eq!(call(&s, 3, true, Skip::Default), Err(Question::Start));
    assert_eq!(call(&s, usize::MAX, true, Skip::Default), Err(Question::Start));
}

#[test]
fn skip_lists() {
    let s = sheet(|s| {
        el(s, "p", "x");
        el(s, "script", "y");
    });
    let with = |names: &[&str]| call(&s, 0, false, Skip::Own(&skip_run(names.iter().copied()).unwrap()));
    assert_eq!(call(&s, 0, false, Skip::Default).unwrap(), b"x");
    assert_eq!(with(&[]).unwrap(), b"x\n\ny");
    assert_eq!(with(&["p"]).unwrap(), b"y");
    assert_eq!(with(&["p", "script"]).unwrap(), b"");
    assert_eq!(with(&["q"; 16]).unwrap(), b"x\n\ny");
    assert_eq!(with(&["q"; 17]), Err(Question::SkipList));
    assert_eq!(with(&["q".repeat(64).as_str()]).unwrap(), b"x\n\ny");
    assert_eq!(with(&["q".repeat(65).as_str()]), Err(Question::SkipList));
    for run in [&b"\x07\0\0"[..], b"\x07\0", b"\x01\0\x01p", b"\x07\0\x01\xff", b"\x07\0\x02p"] {
        assert_eq!(call(&s, 0, false, Skip::Own(run)), Err(Question::SkipList));
    }
}

#[test]
fn limits() {
    let of = |n: usize| sheet(|s| (1..n).map(|_| s.text("")).last());
    assert_eq!(call(&of(65_535), 0, false, Skip::Default).unwrap(), b"");
    assert_eq!(call(&of(65_536), 0, false, Skip::Default), Err(Question::Limits));
    assert_eq!(call(&sheet(|s| nested(100, s)), 0, false, Skip::Default).unwrap(), b"");
    assert_eq!(call(&sheet(|s| nested(101, s)), 0, false, Skip::Default), Err(Question::Limits));
    let long = |last: usize| {
        let body = "x".repeat(65_533);
        let s = sheet(|s| (0..16).map(|k| s.comment(&body[..if k < 15 { 65_533 } else { last }])).last());
        (s.len(), call(&s, 0, false, Skip::Default))
    };
    assert_eq!(long(65_533), (1_048_576, Ok(vec![])));
    assert_eq!(call(&[0; 1_048_576], 0, false, Skip::Default), Err(Question::Fields));
    assert_eq!(call(&[0; 1_048_577], 0, false, Skip::Default), Err(Question::SheetLength));
}

#[test]
fn bytes_that_are_no_sheet() {
    for (bytes, question) in [
        (&b"\x01"[..], Question::Fields),
        (b"\x04\0\x02x", Question::Fields),
        (b"\x07\0\x01p", Question::Fields),
        (b"\x00\0\0", Question::Fields),
        (b"\x01\0\x01p", Question::Rules),
        (b"\x06\0\0", Question::Rules),
        (b"\x01\0\0\x06\0\0", Question::Rules),
        (b"\x02\0\x01a", Question::Rules),
        (b"\x01\0\x01p\x02\0\x01a\x06\0\0", Question::Rules),
        (b"\x01\0\x01p\x06\0\x01x", Question::Rules),
        (b"\x04\0\x01\xff", Question::Utf8),
        (b"\x05\0\x03\xed\xa0\x80", Question::Utf8),
        (b"\x01\0\x0ablockquote\x06\0\0", Question::Blockquote),
    ] {
        assert_eq!(call(bytes, 0, false, Skip::Default), Err(question), "{bytes:?}");
    }
    let skipped = sheet(|s| s.element("script", &[], |s| el(s, "blockquote", "x")));
    assert_eq!(call(&skipped, 0, false, Skip::Default), Err(Question::Blockquote));
}

#[test]
fn memories() {
    let s = sheet(row_010);
    let text = b"|   |   |\n| - | - |\n| 010 | a\\|b |".to_vec();
    let nodes = 7 * 64;
    assert_eq!(call_with(&s, 0, false, Skip::Default, nodes, 47), Ok(text.clone()));
    assert_eq!(call_with(&s, 0, false, Skip::Default, nodes + 63, 48), Ok(text));
    for room in 0..47 {
        assert_eq!(call_with(&s, 0, false, Skip::Default, nodes, room), Err(Question::TextMemory));
    }
    for lent in [0, 1, 64, nodes - 1] {
        assert_eq!(call_with(&s, 0, false, Skip::Default, lent, 47), Err(Question::NodeMemory));
        assert_eq!(call_with(&s, 0, false, Skip::Default, lent, 0), Err(Question::NodeMemory));
    }
}

#[test]
fn the_first_no_answers() {
    // each input but the first has one thing wrong less than the one before it
    let (bad_run, long) = (&b"\x07"[..], vec![9; 1_048_577]);
    for (sheet, start, question) in [
        (&long[..], 9, Question::SheetLength),
        (b"\x06\0\0\x04\0\x01\xff\x09", 9, Question::Fields),
        (b"\x06\0\0\x04\0\x01\xff", 9, Question::Rules),
        (b"\x04\0\x01\xff", 9, Question::Utf8),
        (b"\x01\0\x0ablockquote\x06\0\0", 9, Question::Blockquote),
        (b"\x04\0\x01x", 9, Question::Start),
        (b"\x04\0\x01x", 1, Question::SkipList),
    ] {
        assert_eq!(call_with(sheet, start, true, Skip::Own(bad_run), 0, 0), Err(question));
    }
    assert_eq!(call_with(b"\x04\0\x01x", 1, true, Skip::Default, 0, 0), Err(Question::NodeMemory));
    assert_eq!(call_with(b"\x04\0\x01x", 1, true, Skip::Default, 128, 0), Err(Question::TextMemory));
    assert_eq!(call_with(b"\x04\0\x01x", 1, true, Skip::Default, 128, 1), Ok(b"x".to_vec()));
}

#[test]
fn the_sample() {
    let folder = concat!(env!("CARGO_MANIFEST_DIR"), "/../../samples");
    let sheet = std::fs::read(format!("{folder}/sample.sheet")).unwrap();
    let text = std::fs::read(format!("{folder}/sample.md")).unwrap();
    assert_eq!(call(&sheet, 0, false, Skip::Default), Ok(text));
}

#[test]
fn what_no_field_holds() {
    let fault = |inside: fn(&mut Sheet) -> usize| {
        let mut s = Sheet::new();
        inside(&mut s);
        s.finish().unwrap_err()
    };
    assert_eq!(fault(|s| el(s, "", "x")), Fault::EmptyName);
    assert_eq!(fault(|s| s.element("p", &[("", "x")], |_| ())), Fault::EmptyName);
    assert_eq!(fault(|s| s.text(&"x".repeat(65_536))), Fault::TooLong);
    assert_eq!(skip_run(["p", ""]), Err(Fault::EmptyName));
    let longest = sheet(|s| s.comment(&"x".repeat(65_535)));
    assert_eq!(call(&longest, 0, false, Skip::Default).unwrap(), b"");
}

#[test]
fn questions() {
    for (k, question) in Question::ALL.into_iter().enumerate() {
        assert_eq!(usize::from(question.number()), k + 1);
        assert_eq!(Question::numbered(question.number()), Some(question));
    }
    assert_eq!(Question::numbered(0), None);
    assert_eq!(Question::numbered(11), None);
}
