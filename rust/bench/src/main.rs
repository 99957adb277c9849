//! Times the library beside plain, unverified Rust with the same contract: the same columns in
//! the same run, by turns, the least of many rounds. Without the feature `library` plain Rust
//! races against itself, which shows how even the machine is.

#![forbid(unsafe_code)]
#![allow(missing_docs)]

mod batches;
mod carries;
mod checks;
mod edits;
mod engine;
mod farms;
mod finds;
mod growth;
mod race;
mod report;
mod steps;
mod tables;

use engine::{Engine, Plain};
use race::Race;

fn main() {
    let words: Vec<String> = std::env::args().skip(1).collect();
    match words.iter().map(String::as_str).collect::<Vec<_>>()[..] {
        [] => race(),
        ["one-step", rows, axis, pairs] => growth::one_step(&*ours(), rows, axis, pairs),
        _ => panic!("usage: bench [one-step ROWS AXIS one|many]"),
    }
}

fn race() {
    let race = Race { ours: ours(), plain: Box::new(Plain) };
    println!("each line takes about a tenth of a second");
    checks::run(&race);
    finds::run(&race);
    steps::run(&race);
    farms::run(&race);
    growth::run(&race);
    edits::run(&race);
    carries::run(&race);
    batches::run(&race);
}

#[cfg(feature = "library")]
fn ours() -> Box<dyn Engine> {
    Box::new(engine::Library)
}

#[cfg(not(feature = "library"))]
fn ours() -> Box<dyn Engine> {
    println!("no library here: plain Rust against itself");
    Box::new(Plain)
}
