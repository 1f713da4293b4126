//! One call held to the Rust's answer, with every byte of both memories and of what stands around them.
use std::fmt;

use buzhnael::{Answer, Question, Skip, serialize_md};

use crate::oracle::{Reply, Request};
use crate::rng::Rng;

/// Node memory is lent for this many bytes a node.
const NODE: usize = 64;
/// No text of a compared sheet needs more.
const ROOM_MOST: usize = 1 << 25;

/// Memory that is lent from the middle of other memory, all of it filled with a pattern before a call.
struct Memory {
    bytes: Vec<u8>,
    pattern: Vec<u8>,
    before: usize,
    length: usize,
}

const AROUND: usize = 80;

impl Memory {
    fn new() -> Memory {
        Memory { bytes: vec![], pattern: vec![], before: 0, length: 0 }
    }

    fn fill(&mut self, length: usize, shift: usize) {
        let whole = length + 2 * AROUND;
        while self.pattern.len() < whole {
            // no byte is 0, so that what was cleared and what was not look different
            self.pattern.push((self.pattern.len() % 255) as u8 + 1);
        }
        self.bytes.clear();
        self.bytes.extend_from_slice(&self.pattern[..whole]);
        self.before = AROUND / 2 + shift % (AROUND / 2);
        self.length = length;
    }

    fn lent(&mut self) -> &mut [u8] {
        &mut self.bytes[self.before..self.before + self.length]
    }

    fn around_kept(&self) -> bool {
        let end = self.before + self.length;
        self.bytes[..self.before] == self.pattern[..self.before] && self.bytes[end..] == self.pattern[end..self.bytes.len()]
    }

    fn kept(&self) -> bool {
        self.bytes == self.pattern[..self.bytes.len()]
    }

    /// The text, and zeros behind it; nothing else was changed.
    fn holds(&self, text: &[u8]) -> bool {
        let lent = &self.bytes[self.before..self.before + self.length];
        lent.starts_with(text) && lent[text.len()..].iter().all(|&b| b == 0) && self.around_kept()
    }
}

/// What the library said, once both memories were seen to be as that answer has them.
enum Said {
    Text(Vec<u8>),
    No(Question),
}

impl fmt::Display for Said {
    fn fmt(&self, f: &mut fmt::Formatter<'_>) -> fmt::Result {
        match self {
            Said::Text(text) => write!(f, "\"{}\"", text.escape_ascii()),
            Said::No(question) => write!(f, "no {}", question.number()),
        }
    }
}

pub struct Judge {
    nodes: Memory,
    text: Memory,
    pub runs: u64,
    pub peaks: u64,
    pub cuts: u64,
}

/// What a call came to: its number (0 where it was accepted) and, where it was looked for, its least room, with the text.
pub struct Verdict {
    pub number: u8,
    pub peak: Option<(usize, Vec<u8>)>,
}

/// The nodes of a sheet that the questions let pass.
pub fn count_nodes(sheet: &[u8]) -> usize {
    let (mut at, mut nodes) = (0, 1);
    while at + 3 <= sheet.len() {
        nodes += usize::from(matches!(sheet[at], 1 | 4 | 5));
        at += 3 + usize::from(sheet[at + 1]) * 256 + usize::from(sheet[at + 2]);
    }
    nodes
}

impl Judge {
    pub fn new() -> Judge {
        Judge { nodes: Memory::new(), text: Memory::new(), runs: 0, peaks: 0, cuts: 0 }
    }

    fn call(&mut self, request: &Request, start: usize, nodes: usize, room: usize, shift: usize) -> Result<Said, String> {
        self.runs += 1;
        self.nodes.fill(nodes, shift);
        self.text.fill(room, shift / 64);
        let skip = match &request.run {
            None => Skip::Default,
            Some(run) => Skip::Own(run),
        };
        let said = match serialize_md(&request.sheet, start, request.include, skip, self.nodes.lent(), self.text.lent()) {
            Answer::Written(text) => Said::Text(text.to_vec()),
            Answer::Refused(question) => Said::No(question),
        };
        let (wanted, good) = match &said {
            Said::Text(text) => ("the text and zeros", self.text.holds(text) && self.nodes.holds(&[])),
            Said::No(Question::TextMemory) => ("all zero", self.text.holds(&[]) && self.nodes.holds(&[])),
            Said::No(_) => ("untouched", self.text.kept() && self.nodes.kept()),
        };
        if !good {
            return Err(format!("the memories ({nodes} and {room} bytes) are not {wanted} after {said}"));
        }
        Ok(said)
    }

    /// The call is accepted, and the text is `wanted` where that is known: the text, and a room that suffices.
    fn accepted(
        &mut self,
        request: &Request,
        wanted: Option<&[u8]>,
        nodes: usize,
        r: &mut Rng,
    ) -> Result<(Vec<u8>, usize), String> {
        let least = wanted.map_or(256, <[u8]>::len);
        let mut room = least + r.below(least + 32);
        loop {
            match self.call(request, request.start as usize, nodes, room, r.below(4096))? {
                Said::Text(text) if wanted.is_none_or(|w| w == text) => return Ok((text, room)),
                Said::No(Question::TextMemory) if room < ROOM_MOST => room = room * 2 + 64,
                said => return Err(format!("{room} bytes of room: {said}")),
            }
        }
    }

    /// The least room that suffices, below `enough` and not below the text's length.
    fn peak(&mut self, request: &Request, text: &[u8], enough: usize, nodes: usize) -> Result<usize, String> {
        self.peaks += 1;
        let (mut low, mut high) = (text.len(), enough);
        while low < high {
            let room = low + (high - low) / 2;
            match self.call(request, request.start as usize, nodes, room, room)? {
                Said::Text(t) if t == text => high = room,
                Said::No(Question::TextMemory) => low = room + 1,
                said => return Err(format!("{room} bytes of room: {said}")),
            }
        }
        Ok(high)
    }

    fn refused(&mut self, request: &Request, start: usize, nodes: usize, room: usize, number: u8) -> Result<(), String> {
        match self.call(request, start, nodes, room, nodes ^ room)? {
            Said::No(question) if question.number() == number => Ok(()),
            said => Err(format!("start {start}, {nodes} and {room} bytes lent: {said}, not no {number}")),
        }
    }

    pub fn judge(&mut self, request: &Request, reply: &Reply) -> Result<Verdict, String> {
        let mut r = Rng::new(request.salt);
        let wanted = match reply {
            Reply::Refused(number) => {
                let (nodes, room) = (r.below(1024), r.below(256));
                for (nodes, room) in [(nodes, room), (0, 0)] {
                    self.refused(request, request.start as usize, nodes, room, *number)?;
                }
                return Ok(Verdict { number: *number, peak: None });
            }
            Reply::Text(text) => Some(&text[..]),
            // the cut inside a character, which docs/DIFFERENCES.md names
            Reply::Panic(message) if message.contains("is_char_boundary") => None,
            Reply::Panic(message) => return Err(format!("the Rust panics elsewhere: {message}")),
        };
        let least = count_nodes(&request.sheet) * NODE;
        let spare = r.choice(&[0, 0, 1, 63, 64, 200]);
        let (text, room) = self.accepted(request, wanted, least + spare, &mut r)?;
        if wanted.is_none() {
            self.cuts += 1;
            if std::str::from_utf8(&text).is_err() {
                return Err("the text behind a cut is not UTF-8".to_string());
            }
        }
        if !text.is_empty() {
            self.refused(request, request.start as usize, least, r.below(text.len()), 10)?;
        }
        if r.percent(25) {
            self.refused(request, request.start as usize, r.below(least), r.below(64), 9)?;
            self.refused(request, request.start as usize, least - 1, room, 9)?;
        }
        if r.percent(6) {
            let far = request.start as usize + (r.from(1, 0xFFFF) << 32);
            self.refused(request, far, least, room, 7)?;
        }
        let mut peak = None;
        if r.percent(12) || wanted.is_none() {
            let least_room = self.peak(request, &text, room, least)?;
            self.accepted_at(request, &text, least, least_room)?;
            if least_room > 0 {
                self.refused(request, request.start as usize, least, least_room - 1, 10)?;
            }
            peak = Some((least_room, text));
        }
        Ok(Verdict { number: 0, peak })
    }

    fn accepted_at(&mut self, request: &Request, text: &[u8], nodes: usize, room: usize) -> Result<(), String> {
        match self.call(request, request.start as usize, nodes, room, room)? {
            Said::Text(t) if t == text => Ok(()),
            said => Err(format!("{room} bytes of room: {said}")),
        }
    }
}
