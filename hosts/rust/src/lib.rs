//! Writes fitting sheets as Markdown: a safe call of `buzhnael_serialize_md`, the proved function of the library `md`, and
//! [`Sheet`], which makes sheets.
//!
//! All memory is lent. Node memory has at least 64 bytes for each node ([`Sheet::node_memory`]). Text memory holds the text and,
//! while it is written, the texts that are not yet part of it (emphasis, links, cells, list blocks).
//!
//! ```
//! use buzhnael::{Answer, Question, Sheet, Skip, serialize_md, skip_run};
//!
//! let mut sheet = Sheet::new();
//! sheet.element("h1", &[], |h1| h1.text("Fitting sheet 010"));
//! let list = sheet.element("ol", &[("start", "9")], |ol| {
//!     for side in ["port", "starboard"] {
//!         ol.element("li", &[], |li| li.text(side));
//!     }
//! });
//! let mut nodes = vec![0; sheet.node_memory()];
//! let mut text = [0; 256];
//! let sheet = sheet.finish()?;
//!
//! // the whole sheet: what stands in node 0
//! match serialize_md(&sheet, 0, false, Skip::Default, &mut nodes, &mut text) {
//!     Answer::Written(text) => assert_eq!(text, b"# Fitting sheet 010\n\n9. port\n10. starboard"),
//!     Answer::Refused(question) => panic!("no {}: {question}", question.number()),
//! }
//!
//! // one node, under a skip list of the host's own
//! let run = skip_run(["h1"])?;
//! let answer = serialize_md(&sheet, 0, false, Skip::Own(&run), &mut nodes, &mut text);
//! assert_eq!(answer, Answer::Written(b"9. port\n10. starboard"));
//! let answer = serialize_md(&sheet, list, true, Skip::Default, &mut nodes, &mut text);
//! assert_eq!(answer, Answer::Written(b"9. port\n10. starboard\n\n"));
//!
//! // a refusal names its question
//! let answer = serialize_md(&sheet, 99, false, Skip::Default, &mut nodes, &mut text);
//! assert_eq!(answer, Answer::Refused(Question::Start));
//! # Ok::<(), buzhnael::Fault>(())
//! ```
#![deny(missing_docs)]
use std::fmt;

mod raw;
mod sheet;

pub use sheet::{Fault, Sheet, skip_run};

/// The elements that are left out of the text.
#[derive(Clone, Copy, Debug, PartialEq, Eq)]
pub enum Skip<'a> {
    /// The four names of the default list.
    Default,
    /// A run of fields, one name each, as [`skip_run`] makes it.
    Own(&'a [u8]),
}

/// The ten questions, in their order. The first that says no ends the call.
#[derive(Clone, Copy, Debug, PartialEq, Eq, PartialOrd, Ord, Hash)]
#[repr(u8)]
pub enum Question {
    /// Is the sheet at most 1,048,576 bytes?
    SheetLength = 1,
    /// Does every field end inside it, with a tag from 1 to 6?
    Fields,
    /// Do the fields keep the rules, with every element closed and no stray close?
    Rules,
    /// Are all names, values, texts and comments UTF-8?
    Utf8,
    /// Are there at most 65,535 nodes, fragment included, and never over 100 elements open?
    Limits,
    /// Is no element named `blockquote`, skipped parts included?
    Blockquote,
    /// Is the start number that of a node?
    Start,
    /// Is the skip list the default, or at most 16 whole fields of 1 to 64 UTF-8 bytes each?
    SkipList,
    /// Has the node memory at least 64 bytes for each node?
    NodeMemory,
    /// Does the text memory suffice?
    TextMemory,
}

impl Question {
    /// All ten, in their order.
    pub const ALL: [Question; 10] = [
        Question::SheetLength,
        Question::Fields,
        Question::Rules,
        Question::Utf8,
        Question::Limits,
        Question::Blockquote,
        Question::Start,
        Question::SkipList,
        Question::NodeMemory,
        Question::TextMemory,
    ];

    /// The question's number, 1 to 10.
    pub fn number(self) -> u8 {
        self as u8
    }

    /// The question with this number.
    pub fn numbered(number: u8) -> Option<Question> {
        Question::ALL.get(usize::from(number).checked_sub(1)?).copied()
    }
}

impl fmt::Display for Question {
    fn fmt(&self, f: &mut fmt::Formatter<'_>) -> fmt::Result {
        f.write_str(match self {
            Question::SheetLength => "the sheet is longer than 1,048,576 bytes",
            Question::Fields => "a field does not end inside the sheet, or its tag is none from 1 to 6",
            Question::Rules => "the fields break a rule, or an element is not closed, or a close closes none",
            Question::Utf8 => "a name, a value, a text or a comment is not UTF-8",
            Question::Limits => "more than 65,535 nodes, or more than 100 elements open",
            Question::Blockquote => "an element is named blockquote",
            Question::Start => "no node has the start number",
            Question::SkipList => "the skip list is no run of at most 16 names of 1 to 64 bytes each",
            Question::NodeMemory => "the node memory has less than 64 bytes for each node",
            Question::TextMemory => "the text memory does not suffice",
        })
    }
}

/// What the call answers.
#[derive(Clone, Copy, Debug, PartialEq, Eq)]
pub enum Answer<'t> {
    /// The text, at the start of the text memory. Behind it the text memory is all zero, and so is the node memory.
    Written(&'t [u8]),
    /// The first question that said no. [`Question::TextMemory`] leaves both memories all zero, any other leaves them untouched.
    Refused(Question),
}

/// Writes a sheet as Markdown, from the node with the number `start`, with it (`include_node`) or without it.
///
/// It reads `sheet` and the run of `skip`, and writes nothing but the two memories. Any bytes, lengths and numbers may be passed.
///
/// # Panics
///
/// Never, as long as the archive that is linked is that of the library `md`.
pub fn serialize_md<'t>(
    sheet: &[u8],
    start: usize,
    include_node: bool,
    skip: Skip<'_>,
    nodes: &mut [u8],
    text: &'t mut [u8],
) -> Answer<'t> {
    let (own, run): (u8, &[u8]) = match skip {
        Skip::Default => (0, &[]),
        Skip::Own(run) => (1, run),
    };
    // SAFETY: the pointers come from slices, so that none is null and each covers its length; the two that are written come from
    // exclusive borrows, so that they overlap nothing else.
    let code = unsafe {
        raw::buzhnael_serialize_md(
            sheet.as_ptr(),
            sheet.len(),
            own,
            run.as_ptr(),
            run.len(),
            start,
            u8::from(include_node),
            nodes.as_mut_ptr(),
            nodes.len(),
            text.as_mut_ptr(),
            text.len(),
        )
    };
    match usize::try_from(code) {
        Ok(length) => Answer::Written(&text[..length]),
        Err(_) => {
            let question = u8::try_from(code.unsigned_abs()).ok().and_then(Question::numbered);
            Answer::Refused(question.expect("a question's number"))
        }
    }
}
