//! The least stack with which a call returns: this program runs itself, and the call in a thread of so much stack.
use std::env;
use std::hint::black_box;
use std::process::{Command, Stdio};
use std::thread;

use buzhnael::{Skip, serialize_md};

use crate::sheets::CASES;

/// The word that makes this program a child, and the case that calls nothing.
pub const CHILD: &str = "--child";
pub const NOTHING: usize = usize::MAX;

/// Stacks are tried in steps of 4 KiB, up to 8 MiB, which is what the main thread of a program has.
const STEP: usize = 4;
const MOST: usize = 8192;

/// No thread has less than some 16 KiB, whatever is asked for. So each has these more and lays them aside first.
const ASIDE: usize = 64;

#[inline(never)]
fn laid_aside(work: Box<dyn FnOnce() + Send>) {
    let aside = [1u8; ASIDE * 1024];
    black_box(&aside);
    work();
    black_box(&aside);
}

/// One call, or none, in a thread of `kib` KiB. All memory is made before it, outside the thread.
pub fn child(case: usize, kib: usize, room: usize) {
    let work: Box<dyn FnOnce() + Send> = match CASES.get(case) {
        None => Box::new(|| ()),
        Some(case) => {
            let made = (case.make)();
            let mut nodes = vec![0; made.node_memory()];
            let mut text = vec![0; room];
            let sheet = made.finish().expect("a sheet");
            Box::new(move || {
                serialize_md(&sheet, 0, false, Skip::Default, &mut nodes, &mut text);
            })
        }
    };
    let thread = thread::Builder::new().stack_size((kib + ASIDE) * 1024).spawn(|| laid_aside(work)).expect("a thread");
    thread.join().expect("a thread that ends");
}

/// Whether the child lives. One whose stack overflows dies by a signal.
fn lives(case: usize, kib: usize, room: usize) -> bool {
    let words = [case, kib, room].map(|n| n.to_string());
    let program = env::current_exe().expect("the path of this program");
    let status = Command::new(program).arg(CHILD).args(words).stderr(Stdio::null()).status().expect("a child");
    assert!(status.success() || status.code().is_none(), "a child ended with {status}");
    status.success()
}

/// The least stack in KiB, by bisection.
pub fn least(case: usize, room: usize) -> usize {
    assert!(lives(case, MOST, room), "a stack of {MOST} KiB overflows");
    let (mut low, mut high) = (0, MOST / STEP);
    while high - low > 1 {
        let steps = low + (high - low) / 2;
        if lives(case, steps * STEP, room) { high = steps } else { low = steps }
    }
    high * STEP
}
