//! Sheets and runs of a skip list, made field by field.
use std::error::Error;
use std::fmt;

const OPEN: u8 = 1;
const ATTRIBUTE: u8 = 2;
const VALUE: u8 = 3;
const TEXT: u8 = 4;
const COMMENT: u8 = 5;
const CLOSE: u8 = 6;
const SKIP: u8 = 7;

/// What no field can hold.
#[derive(Clone, Copy, Debug, PartialEq, Eq)]
pub enum Fault {
    /// A name without a byte.
    EmptyName,
    /// A name, a value, a text or a comment of more than 65,535 bytes.
    TooLong,
}

impl fmt::Display for Fault {
    fn fmt(&self, f: &mut fmt::Formatter<'_>) -> fmt::Result {
        f.write_str(match self {
            Fault::EmptyName => "a name without a byte",
            Fault::TooLong => "more than 65,535 bytes in one field",
        })
    }
}

impl Error for Fault {}

/// Puts a field behind `out`, or nothing where it cannot be one.
fn push(out: &mut Vec<u8>, tag: u8, body: &str) -> Result<(), Fault> {
    if body.is_empty() && matches!(tag, OPEN | ATTRIBUTE | SKIP) {
        return Err(Fault::EmptyName);
    }
    let length = u16::try_from(body.len()).map_err(|_| Fault::TooLong)?;
    out.push(tag);
    out.extend_from_slice(&length.to_be_bytes());
    out.extend_from_slice(body.as_bytes());
    Ok(())
}

/// A sheet in the making: elements, texts and comments, in document order.
///
/// Each call that adds a node returns its number, by which [`serialize_md`](crate::serialize_md) can start. What a sheet may hold
/// (its length, its depth, its nodes, `blockquote`) is asked by the call, not here.
///
/// ```
/// let mut sheet = buzhnael::Sheet::new();
/// let p = sheet.element("p", &[("id", "rings")], |p| {
///     p.text("six ");
///     p.element("b", &[], |b| b.text("rings"))
/// });
/// assert_eq!((p, sheet.nodes()), (1, 5));
/// assert_eq!(sheet.finish().unwrap(), b"\x01\0\x01p\x02\0\x02id\x03\0\x05rings\x04\0\x04six \x01\0\x01b\x04\0\x05rings\x06\0\0\x06\0\0");
/// ```
#[derive(Clone, Debug)]
pub struct Sheet {
    bytes: Vec<u8>,
    nodes: usize,
    fault: Option<Fault>,
}

impl Default for Sheet {
    fn default() -> Sheet {
        Sheet::new()
    }
}

impl Sheet {
    /// A sheet with nothing in it: node 0, the fragment, alone.
    pub fn new() -> Sheet {
        Sheet { bytes: vec![], nodes: 1, fault: None }
    }

    fn field(&mut self, tag: u8, body: &str) {
        if let Err(fault) = push(&mut self.bytes, tag, body) {
            self.fault.get_or_insert(fault);
        }
    }

    fn node(&mut self, tag: u8, body: &str) -> usize {
        self.field(tag, body);
        self.nodes += 1;
        self.nodes - 1
    }

    /// An element with its attributes, and inside it what `inside` adds; what `inside` returns is dropped. Of a repeated attribute
    /// name the first value counts.
    pub fn element<R>(&mut self, name: &str, attributes: &[(&str, &str)], inside: impl FnOnce(&mut Sheet) -> R) -> usize {
        let number = self.node(OPEN, name);
        for (name, value) in attributes {
            self.field(ATTRIBUTE, name);
            self.field(VALUE, value);
        }
        inside(self);
        self.field(CLOSE, "");
        number
    }

    /// A text. Two texts behind one another stay two nodes.
    pub fn text(&mut self, text: &str) -> usize {
        self.node(TEXT, text)
    }

    /// A comment.
    pub fn comment(&mut self, comment: &str) -> usize {
        self.node(COMMENT, comment)
    }

    /// How many nodes the sheet has, the fragment included.
    pub fn nodes(&self) -> usize {
        self.nodes
    }

    /// The least length of node memory for this sheet: 64 bytes for each node.
    pub fn node_memory(&self) -> usize {
        self.nodes * 64
    }

    /// The bytes of the sheet, or the first thing that no field can hold.
    pub fn finish(self) -> Result<Vec<u8>, Fault> {
        match self.fault {
            None => Ok(self.bytes),
            Some(fault) => Err(fault),
        }
    }
}

/// The run of a skip list with these element names, for [`Skip::Own`](crate::Skip::Own). Without a name nothing is skipped.
///
/// ```
/// assert_eq!(buzhnael::skip_run(["nav", "aside"]).unwrap(), b"\x07\0\x03nav\x07\0\x05aside");
/// ```
pub fn skip_run<'a>(names: impl IntoIterator<Item = &'a str>) -> Result<Vec<u8>, Fault> {
    let mut out = vec![];
    for name in names {
        push(&mut out, SKIP, name)?;
    }
    Ok(out)
}
