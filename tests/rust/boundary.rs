//! Compares the library, and the `cavity` program, with the reference over many inputs, the same in every run.
//!   boundary PROGRAM [FOLDER ..]     FOLDER has stored jobs
//! Ends in 'N passed, M failed'; a line before it for each group, with how often each kind of answer came.
mod calls;
mod groups;
mod jobs;
mod lent;
mod meshes;
mod random;
mod reference;
mod tally;

use groups::{Part, GROUPS};
use std::thread::Builder;
use tally::Tally;

const THREADS: u64 = 2;
const STACK: usize = 16 << 20;

/// Every group, each part on a thread of its own.
fn run_all(part: &Part) -> Vec<Tally> {
    let start = |number: u64| {
        let part = Part { number, of: THREADS, ..part.clone() };
        let all = move || GROUPS.iter().map(|group| (group.run)(&part)).collect::<Vec<Tally>>();
        Builder::new().stack_size(STACK).spawn(all).expect("a thread")
    };
    let threads: Vec<_> = (0..THREADS).map(start).collect();
    let mut tallies: Vec<Tally> = GROUPS.iter().map(|_| Tally::default()).collect();
    for thread in threads {
        let parts = thread.join().expect("a thread that ends");
        tallies.iter_mut().zip(parts).for_each(|(tally, part)| tally.add(part));
    }
    tallies
}

fn main() {
    let mut arguments = std::env::args_os().skip(1);
    let program = arguments.next().unwrap_or("target/bin/cavity".into()).into();
    let part = Part { number: 0, of: 1, program, folders: arguments.map(Into::into).collect() };
    let mut all = Tally::default();
    for (group, mut tally) in GROUPS.iter().zip(run_all(&part)) {
        let (kinds, least) = (group.wanted)(&part);
        tally.require(&kinds, least);
        tally.print(group.name);
        all.passed += tally.passed;
        all.failed += tally.failed;
    }
    println!("{} passed, {} failed", all.passed, all.failed);
    std::process::exit(i32::from(all.failed > 0));
}
