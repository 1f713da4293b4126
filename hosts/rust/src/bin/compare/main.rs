//! Compares the library with the Rust, call by call:
//!
//!     compare --oracle PATH [--calls N] [--seed S] [--short K] [--peaks FILE]
//!
//! PATH is the Rust built as a server, or the folder of its sources. First come the limits of document 01, every sheet of at most 2
//! bytes, every row of at most K fields from a small set, and every text of at most K - 1 characters in every kind of block; then N calls
//! on random sheets: general trees from every start node with both flags, plain sheets, damaged bytes, skip lists. Every call is made
//! with both memories filled and lent from the middle of other memory, and every byte is looked at afterwards, also where the call is
//! made again with too little memory. FILE gets the least rooms that were found, with the texts, one call to a line. A difference prints the smallest sheet
//! found, and the program ends with 1.
use std::collections::BTreeMap;
use std::fs::File;
use std::io::{BufWriter, Write};
use std::path::PathBuf;
use std::process::exit;
use std::sync::mpsc::{SyncSender, sync_channel};
use std::thread;
use std::time::Instant;

mod judge;
mod oracle;
mod plain;
mod rng;
mod shrink;
mod trees;

use judge::{Judge, count_nodes};
use oracle::{Oracle, Reply, Request, Sender};
use rng::Rng;
use trees::{Bytes, Gen, el, field, text};

struct Args {
    oracle: PathBuf,
    calls: u64,
    seed: u64,
    short: usize,
    peaks: Option<PathBuf>,
}

fn args() -> Args {
    let mut out = Args { oracle: PathBuf::new(), calls: 100_000, seed: 1, short: 4, peaks: None };
    let mut words = std::env::args().skip(1);
    let usage = || -> ! {
        eprintln!("usage: compare --oracle PATH [--calls N] [--seed S] [--short K] [--peaks FILE]");
        exit(2)
    };
    while let Some(word) = words.next() {
        let Some(value) = words.next() else { usage() };
        let number = || value.replace('_', "").parse::<u64>().unwrap_or_else(|_| usage());
        match word.as_str() {
            "--oracle" => out.oracle = oracle::program(value.as_ref()),
            "--calls" => out.calls = number(),
            "--seed" => out.seed = number(),
            "--short" => out.short = number() as usize,
            "--peaks" => out.peaks = Some(value.into()),
            _ => usage(),
        }
    }
    if out.oracle.as_os_str().is_empty() {
        usage();
    }
    out
}

/// What is sent ahead at once.
const BATCH: usize = 1024;

/// Sends requests ahead and hands them on for judgement.
struct Feed {
    to: Sender,
    hand: SyncSender<Vec<Request>>,
    batch: Vec<Request>,
    sent: u64,
    number: u64,
    salts: Rng,
}

impl Feed {
    fn call(&mut self, sheet: &std::sync::Arc<[u8]>, start: u32, include: bool, run: &Option<Bytes>) {
        let (number, salt) = (self.number, self.salts.next());
        let run = run.as_ref().map(|r| r.clone().into());
        self.batch.push(Request { sheet: sheet.clone(), start, include, run, number, salt });
        self.sent += 1;
        if self.batch.len() == BATCH {
            self.flush();
        }
    }

    /// Where the other side is gone, it has printed why.
    fn flush(&mut self) {
        let batch = std::mem::take(&mut self.batch);
        if self.hand.send(batch.clone()).is_err() {
            return;
        }
        for request in &batch {
            if self.to.send(request).is_err() {
                return;
            }
        }
        let _ = self.to.flush();
    }

    fn one(&mut self, sheet: Bytes) {
        self.number += 1;
        self.call(&sheet.into(), 0, false, &None);
    }

    /// From every node, with both flags.
    fn all(&mut self, sheet: Bytes, run: &Option<Bytes>) {
        self.number += 1;
        let nodes = count_nodes(&sheet) as u32;
        let sheet = sheet.into();
        for start in 0..nodes {
            for include in [false, true] {
                self.call(&sheet, start, include, run);
            }
        }
    }

    fn limits(&mut self) {
        for n in [65_534, 65_535] {
            self.one(text("").repeat(n));
        }
        for n in [99, 100, 101] {
            for name in ["b", "ul", "li", "table", "a", "div", "code", "pre", "td"] {
                self.one([field(1, name).repeat(n), text("x"), field(6, "").repeat(n)].concat());
            }
        }
        for n in [1_048_575, 1_048_576, 1_048_577] {
            self.one(vec![0; n]);
            self.one([text("x".repeat(65_533)).repeat(15), text("x".repeat(n - 15 * 65_536 - 3))].concat());
            self.one([field(5, "x".repeat(65_533)).repeat(15), field(5, "x".repeat(n - 15 * 65_536 - 3))].concat());
        }
    }

    fn short_bytes(&mut self) {
        self.one(vec![]);
        for a in 0..=255 {
            self.one(vec![a]);
            for b in 0..=255 {
                self.one(vec![a, b]);
            }
        }
        for a in 0..=255 {
            for length in 0..=3u8 {
                for b in [0, 1, 65, 128, 255] {
                    self.one([vec![a, 0, length], vec![b; usize::from(length)]].concat());
                }
            }
        }
    }

    fn short_rows(&mut self, most: usize) {
        let set = [
            field(1, "p"),
            field(1, "ul"),
            field(1, "li"),
            field(1, "b"),
            field(1, "a"),
            field(1, "pre"),
            field(1, "table"),
            field(2, "href"),
            field(3, "u"),
            text("x"),
            text(" "),
            field(5, "c"),
            field(6, ""),
        ];
        for n in 1..=most {
            for mut k in 0..set.len().pow(n as u32) {
                let mut sheet = vec![];
                let (mut open, mut rules) = (0, true);
                for _ in 0..n {
                    let made = &set[k % set.len()];
                    open += i32::from(made[0] == 1) - i32::from(made[0] == 6);
                    rules &= open >= 0;
                    sheet.extend_from_slice(made);
                    k /= set.len();
                }
                if rules && open == 0 { self.all(sheet, &None) } else { self.one(sheet) }
            }
        }
    }

    fn short_texts(&mut self, most: usize) {
        let set = plain::alphabet();
        for n in 1..=most {
            for mut k in 0..set.len().pow(n as u32) {
                let mut body = String::new();
                for _ in 0..n {
                    body.push(set[k % set.len()]);
                    k /= set.len();
                }
                self.one(plain::everywhere(&body));
            }
        }
    }

    fn random(&mut self, seed: u64, calls: u64) {
        let until = self.sent + calls;
        let mut n = 0;
        while self.sent < until {
            let mut g = Gen::new(Rng::of(seed, n));
            n += 1;
            match g.r.below(100) {
                0..50 => {
                    let (sheet, start, run) = g.damaged();
                    self.number += 1;
                    let sheet = sheet.into();
                    for include in [false, true] {
                        self.call(&sheet, start, include, &run);
                    }
                }
                50..60 => {
                    let sheet = plain::sheet(&mut g.r);
                    self.one(sheet.clone());
                    if g.r.percent(20) {
                        let run = g.skips();
                        self.all(sheet, &run);
                    }
                }
                60..62 => {
                    let (sheet, more) = (g.sheet(), g.sheet());
                    let wraps = g.r.from(1, 40);
                    let made = (0..wraps).fold([sheet, more].concat(), |inside, _| {
                        el(g.r.choice(&["ul", "li", "div", "b", "i", "a", "table", "tr", "td", "span", "section"]), &[inside])
                    });
                    self.one(made);
                }
                _ => {
                    let (sheet, run) = (g.sheet(), g.skips());
                    self.all(sheet, &run);
                }
            }
        }
    }
}

fn hex(bytes: &[u8]) -> String {
    bytes.iter().map(|b| format!("{b:02x}")).collect()
}

/// The request in one line; a long sheet is told by its beginning.
fn told(request: &Request) -> String {
    let run = request.run.as_ref().map_or("default".to_string(), |run| format!("run {}", hex(run)));
    let (sheet, length) = (&request.sheet, request.sheet.len());
    let sheet = if length <= 4096 { hex(sheet) } else { format!("{}... ({length} bytes)", hex(&sheet[..64])) };
    format!("sheet {sheet} start {} include {} skip {run}", request.start, request.include)
}

/// Prints a difference and the smallest one found in its place.
fn differs(args: &Args, request: &Request, reply: &Reply, why: &str) -> ! {
    println!("DIFFERENT (seed {}, sheet {}): {}", args.seed, request.number, told(request));
    println!("  the Rust: {reply}\n  the library: {why}");
    let mut oracle = Oracle::start(&args.oracle).expect("the oracle");
    let mut judge = Judge::new();
    let smallest = shrink::shrink(request.clone(), |r| {
        let reply = oracle.ask(r).expect("the oracle");
        judge.judge(r, &reply).is_err()
    });
    let reply = oracle.ask(&smallest).expect("the oracle");
    println!("smallest found: {}", told(&smallest));
    println!("  fields: {}", shrink::told(&smallest.sheet));
    println!("  the Rust: {reply}\n  the library: {}", judge.judge(&smallest, &reply).err().unwrap_or_default());
    drop(oracle.to);
    let _ = oracle.child.wait();
    exit(1)
}

fn main() {
    let args = args();
    let began = Instant::now();
    println!("seed {}, {} random calls, rows of at most {} fields", args.seed, args.calls, args.short);
    let Oracle { mut child, to, mut from } = Oracle::start(&args.oracle).unwrap_or_else(|e| {
        eprintln!("{}: {e}", args.oracle.display());
        exit(2)
    });
    let mut peaks = args.peaks.as_ref().map(|path| BufWriter::new(File::create(path).expect("the file of peaks")));
    let (hand, batches) = sync_channel(8);
    let (seed, calls, short) = (args.seed, args.calls, args.short);
    let feeder = thread::spawn(move || {
        let mut feed = Feed { to, hand, batch: vec![], sent: 0, number: 0, salts: Rng::of(seed, u64::MAX) };
        feed.limits();
        feed.short_bytes();
        feed.short_rows(short);
        feed.short_texts(short.saturating_sub(1));
        let before = feed.sent;
        feed.random(seed, calls);
        feed.flush();
        (before, feed.sent - before)
    });
    let mut judge = Judge::new();
    let mut numbers = BTreeMap::new();
    for batch in batches {
        for request in batch {
            let reply = from.receive().expect("a reply of the oracle");
            match judge.judge(&request, &reply) {
                Err(why) => {
                    let _ = child.kill();
                    let _ = child.wait();
                    differs(&args, &request, &reply, &why)
                }
                Ok(verdict) => {
                    *numbers.entry(verdict.number).or_insert(0u64) += 1;
                    if let (Some(out), Some((peak, text))) = (&mut peaks, verdict.peak) {
                        let run = request.run.as_ref().map_or("-".to_string(), |run| format!(".{}", hex(run)));
                        let include = u8::from(request.include);
                        let (sheet, start, text) = (hex(&request.sheet), request.start, hex(&text));
                        writeln!(out, ".{sheet} {start} {include} {run} {peak} .{text}").expect("the file of peaks");
                    }
                }
            }
        }
    }
    let (fixed, random) = feeder.join().expect("the feeder");
    let status = child.wait().expect("the oracle");
    assert!(status.success(), "the oracle ended with {status}");
    if let Some(mut out) = peaks {
        out.flush().expect("the file of peaks");
    }
    println!("by answer (0 is a text): {numbers:?}; the Rust panics at the cut: {}", judge.cuts);
    println!("{} calls of the library; the least room found {} times", judge.runs, judge.peaks);
    println!("{fixed} calls on limits and short input, {random} on random sheets, no difference; {} s", began.elapsed().as_secs());
}

#[cfg(test)]
mod tests {
    use super::*;
    use buzhnael::{Answer, Question, Skip, serialize_md};

    /// Trees and plain sheets pass every question; a damaged sheet is refused by each of questions 2 to 8 sooner or later.
    #[test]
    fn sheets_are_sheets() {
        let (mut nodes, mut text) = (vec![0; 1 << 20], vec![0; 1 << 20]);
        let mut refused = std::collections::BTreeSet::new();
        for n in 0..3000 {
            let mut g = Gen::new(Rng::of(7, n));
            for sheet in [g.sheet(), plain::sheet(&mut g.r)] {
                let answer = serialize_md(&sheet, 0, false, Skip::Default, &mut nodes[..count_nodes(&sheet) * 64], &mut text[..]);
                assert!(matches!(answer, Answer::Written(_)), "{n}: {answer:?}");
            }
            let (sheet, start, run) = g.damaged();
            let skip = run.as_ref().map_or(Skip::Default, |run| Skip::Own(run));
            if let Answer::Refused(question) = serialize_md(&sheet, start as usize, false, skip, &mut nodes[..], &mut text[..]) {
                refused.insert(question);
            }
        }
        assert!(refused.into_iter().eq(Question::ALL[1..8].iter().copied()));
    }
}
