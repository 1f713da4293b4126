//! Times the library and the Rust of dom_query on the same trees, in one process; `tools/bench.py` builds and runs it.
//!
//!     bench times SAMPLE              a line for each corpus: name, bytes, nodes, bytes of text, nanoseconds of the Rust, of the
//!                                     call, and of the call from a node with nothing in it
//!     bench run SAMPLE N SIDE COUNT   corpus N, COUNT times by SIDE: 0 the Rust, 1 the call, 2 the call from such a node
//!
//! A call from a node with nothing in it puts the questions, stores the tree and clears both memories, and writes no text.
use std::hint::black_box;
use std::time::{Duration, Instant};

use buzhnael::{Answer, Skip, serialize_md};
use dom_query::Tree;

mod corpora;

use corpora::Corpus;

/// The least time of one round, and the number of rounds. The least of the rounds counts.
const ROUND: Duration = Duration::from_millis(30);
const ROUNDS: usize = 15;

struct Bench {
    tree: Tree,
    sheet: Vec<u8>,
    nodes: Vec<u8>,
    text: Vec<u8>,
    written: usize,
    /// A node with nothing in it.
    leaf: usize,
}

impl Bench {
    /// The corpus with its tree and the memories; both sides must write the same text.
    fn new(corpus: &Corpus) -> Bench {
        let sheet = (corpus.sheet)();
        let tree = corpora::tree(&sheet);
        let expected = dom_query::serialize_md(&tree.root(), false, None).to_string();
        let count = tree.len();
        let mut bench = Bench {
            tree,
            sheet,
            nodes: vec![0; count * 64],
            text: vec![0; expected.len() * 2 + 4096],
            written: expected.len(),
            leaf: count - 1,
        };
        let Answer::Written(text) = bench.call(0) else { panic!("{}: refused", corpus.name) };
        assert_eq!(text, expected.as_bytes(), "{}", corpus.name);
        assert_eq!(bench.call(bench.leaf), Answer::Written(b""), "{}", corpus.name);
        bench
    }

    fn call(&mut self, start: usize) -> Answer<'_> {
        serialize_md(&self.sheet, start, false, Skip::Default, &mut self.nodes, &mut self.text)
    }

    fn run(&mut self, side: usize, count: usize) {
        for _ in 0..count {
            match side {
                0 => drop(black_box(dom_query::serialize_md(black_box(&self.tree.root()), false, None))),
                1 => drop(black_box(self.call(black_box(0)))),
                _ => drop(black_box(self.call(black_box(self.leaf)))),
            }
        }
    }

    fn timed(&mut self, side: usize, count: usize) -> Duration {
        let start = Instant::now();
        self.run(side, count);
        start.elapsed()
    }

    /// Nanoseconds of one call by each side, the rounds of the sides in turns.
    fn times(&mut self) -> [f64; 3] {
        let counts = [0, 1, 2].map(|side| {
            let mut count = 1;
            while self.timed(side, count) < ROUND {
                count *= 2;
            }
            count
        });
        let mut best = [f64::INFINITY; 3];
        for _ in 0..ROUNDS {
            for side in 0..3 {
                let time = self.timed(side, counts[side]).as_nanos() as f64 / counts[side] as f64;
                best[side] = best[side].min(time);
            }
        }
        best
    }
}

fn main() {
    let words: Vec<String> = std::env::args().skip(1).collect();
    let numbers: Vec<usize> = words.iter().skip(2).map(|w| w.parse().unwrap()).collect();
    let all = corpora::all(std::fs::read(&words[1]).unwrap());
    match (words[0].as_str(), numbers.as_slice()) {
        ("times", []) => {
            for corpus in &all {
                let mut bench = Bench::new(corpus);
                let [rust, call, leaf] = bench.times();
                let (name, sheet, nodes, text) = (&corpus.name, bench.sheet.len(), bench.tree.len(), bench.written);
                println!("{name}\t{sheet}\t{nodes}\t{text}\t{rust}\t{call}\t{leaf}");
            }
        }
        ("run", &[corpus, side, count]) => Bench::new(&all[corpus]).run(side, count),
        _ => panic!("usage: bench times SAMPLE | bench run SAMPLE N SIDE COUNT"),
    }
}
