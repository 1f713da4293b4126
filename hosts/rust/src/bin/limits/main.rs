//! Stack, time and answers at the limits of the ten questions:
//!
//!     limits
//!
//! Prints a table, one sheet to a line, each written from node 0 without it under the default list: the sheet's bytes and nodes, the
//! answer, the bytes of the text, the milliseconds of the call, and the least stack in KiB of a thread in which it returns. The text
//! memory begins with 4 KiB and is doubled until it suffices. An answer that is not the one that must be ends the program with 1.
use std::env;
use std::process::exit;
use std::thread;
use std::time::{Duration, Instant};

use buzhnael::{Answer, Skip, serialize_md};

mod sheets;
mod stack;

use sheets::{CASES, Case};

const ROOM_LEAST: usize = 4096;
const ROOM_MOST: usize = 1 << 30;

/// What a call answers: the number of the question that says no, or 0, and the length of the text.
#[derive(Clone, Copy, PartialEq)]
struct Said {
    number: u8,
    length: usize,
}

/// What was seen of a case.
struct Seen {
    bytes: usize,
    nodes: usize,
    room: usize,
    said: Said,
    took: Duration,
}

fn call(sheet: &[u8], nodes: &mut [u8], text: &mut [u8]) -> Said {
    match serialize_md(sheet, 0, false, Skip::Default, nodes, text) {
        Answer::Written(text) => Said { number: 0, length: text.len() },
        Answer::Refused(question) => Said { number: question.number(), length: 0 },
    }
}

/// The shortest of three calls, in memories that were written before.
fn timed(sheet: &[u8], nodes: &mut [u8], text: &mut [u8]) -> (Said, Duration) {
    let said = call(sheet, nodes, text);
    let mut best = Duration::MAX;
    for _ in 0..3 {
        let began = Instant::now();
        let again = call(sheet, nodes, text);
        best = best.min(began.elapsed());
        assert!(again == said, "the same call, another answer");
    }
    (said, best)
}

fn look(case: &Case) -> Seen {
    let made = (case.make)();
    let nodes = made.nodes();
    let mut memory = vec![1; made.node_memory()];
    let sheet = made.finish().expect("a sheet");
    let mut room = case.room.unwrap_or(ROOM_LEAST);
    loop {
        let mut text = vec![1; room];
        let (said, took) = timed(&sheet, &mut memory, &mut text);
        if said.number != 10 || case.room.is_some() || room >= ROOM_MOST {
            return Seen { bytes: sheet.len(), nodes, room, said, took };
        }
        room *= 2;
    }
}

fn line(name: &str, seen: &Seen, stack: usize) {
    let answer = if seen.said.number == 0 { "text".to_string() } else { format!("no {}", seen.said.number) };
    let ms = seen.took.as_secs_f64() * 1000.0;
    let (bytes, nodes, length) = (seen.bytes, seen.nodes, seen.said.length);
    println!("{name:<50} {bytes:>9} {nodes:>6} {answer:>6} {length:>10} {ms:>9.3} {stack:>6}");
}

fn table() -> bool {
    let mut good = true;
    println!("{:<50} {:>9} {:>6} {:>6} {:>10} {:>9} {:>6}", "sheet", "bytes", "nodes", "answer", "text", "ms", "KiB");
    for (number, case) in CASES.iter().enumerate() {
        let seen = look(case);
        line(case.name, &seen, stack::least(number, seen.room));
        if seen.said.number != case.number {
            println!(
                "DIFFERENT: the answer must be {}",
                if case.number == 0 { "a text".to_string() } else { format!("no {}", case.number) }
            );
            good = false;
        }
    }
    println!("a thread that calls nothing: {} KiB", stack::least(stack::NOTHING, 0));
    good
}

fn main() {
    let words: Vec<_> = env::args().skip(1).collect();
    let numbers: Vec<usize> = words.iter().skip(1).filter_map(|w| w.parse().ok()).collect();
    match (words.first().map(String::as_str), &numbers[..]) {
        (None, _) => {
            // a stack for which no sheet is too deep, whatever that of the main thread
            let all = thread::Builder::new().stack_size(64 << 20).spawn(table).expect("a thread");
            exit(i32::from(!all.join().expect("the table")));
        }
        (Some(stack::CHILD), &[case, kib, room]) => stack::child(case, kib, room),
        _ => {
            eprintln!("usage: limits");
            exit(2)
        }
    }
}
