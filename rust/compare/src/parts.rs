//! The parts of a run. The random ones are run on two threads.

use crate::engine::Engine;
use crate::judge::{Difference, Judge};
use crate::options::{Options, Part};
use crate::tally::Tally;
use crate::{batches, carries, checks, circles, commute, edits, farm, steps, trees};
use std::panic::{catch_unwind, AssertUnwindSafe};
use std::sync::atomic::{AtomicUsize, Ordering};
use std::sync::{Mutex, OnceLock};
use std::thread;
use std::time::Instant;

/// The random parts: how many items the default run has, and how many calls an item. The longest
/// are taken first, so that the threads end at about the same time.
const PARTS: [(Part, u64, u64); 8] = [
    (Part::Step, steps::CALLS, 1),
    (Part::Edit, edits::CALLS, 1),
    (Part::Commute, commute::PAIRS, 13),
    (Part::Batch, batches::CALLS, 1),
    (Part::Check, checks::CALLS, 1),
    (Part::Carry, carries::CALLS, 1),
    (Part::Circle, circles::CIRCLES, 6),
    (Part::Trees, trees::STEPS, 6),
];

const THREADS: usize = 2;

/// How an engine is started. Each thread has its own, as a pipe serves only one.
pub type Start<'a> = &'a (dyn Fn() -> Result<Box<dyn Engine>, String> + Sync);

/// Poses the stated cases.
pub fn run_stated(engine: &dyn Engine) -> Result<Tally, String> {
    let ended = OnceLock::new();
    let mut judge = Judge::new(engine, Part::Farm, &ended);
    pose_all(Part::Farm, &mut judge, 0, 0)?;
    Ok(judge.tally)
}

/// Poses the random calls that are asked for, and gives all calls with those posed before.
pub fn run_random(start: Start<'_>, options: &Options, before: Tally) -> Result<Tally, String> {
    let run = Run {
        start,
        options,
        parts: parts_with_items(options),
        taken: AtomicUsize::new(0),
        all: Mutex::new(before),
        ended: OnceLock::new(),
    };
    thread::scope(|scope| {
        for _ in 0..THREADS {
            scope.spawn(|| run.take_parts_until_the_end());
        }
    });
    match run.ended.into_inner() {
        Some(told) => Err(told),
        None => Ok(run.all.into_inner().expect("no thread stops while it adds its calls")),
    }
}

/// The random parts that are asked for, and how many items of each.
fn parts_with_items(options: &Options) -> Vec<(Part, u64)> {
    let parts = PARTS.into_iter().filter(|&(part, ..)| options.chooses(part));
    let planned: u64 = parts.clone().map(|(_, items, calls)| items * calls).sum();
    let with_items = parts.map(|(part, default, _)| {
        (part, options.calls.map_or(default, |calls| (calls * default).div_ceil(planned)))
    });
    with_items.collect()
}

/// What the threads share.
struct Run<'a> {
    start: Start<'a>,
    options: &'a Options,
    parts: Vec<(Part, u64)>,
    /// How many of the parts are taken.
    taken: AtomicUsize,
    /// All calls of the parts that are done.
    all: Mutex<Tally>,
    /// What ended the run before all parts were done: the first difference stays.
    ended: OnceLock<String>,
}

impl Run<'_> {
    /// Whatever goes wrong ends the whole run. A panic too, or the other thread would go on for as
    /// long as its parts take.
    fn take_parts_until_the_end(&self) {
        let outcome = catch_unwind(AssertUnwindSafe(|| self.take_parts()));
        if let Err(told) = outcome.unwrap_or_else(|_| Err("the comparison panicked".to_string())) {
            self.ended.get_or_init(|| told);
        }
    }

    fn take_parts(&self) -> Result<(), String> {
        let engine = (self.start)()?;
        while let Some((part, items)) = self.next_part() {
            self.run_part(part, engine.as_ref(), items)?;
        }
        Ok(())
    }

    /// The next part that no thread has taken, which is taken with this.
    fn next_part(&self) -> Option<(Part, u64)> {
        self.parts.get(self.taken.fetch_add(1, Ordering::Relaxed)).copied()
    }

    fn run_part(&self, part: Part, engine: &dyn Engine, items: u64) -> Result<(), String> {
        let started = Instant::now();
        let mut judge = Judge::new(engine, part, &self.ended);
        pose_all(part, &mut judge, self.options.seed, items)?;
        let Judge { tally, summary, .. } = judge;
        let (calls, seconds) = (tally.calls(), started.elapsed().as_secs_f64());
        // Printed at once, so that no line of the other thread comes between.
        print!("{}: {calls} calls in {seconds:.1} s\n{summary}{}", part.title(), tally.notes());
        if self.options.calls.is_none() {
            tally.demand()?;
        }
        self.all.lock().expect("no thread stops while it adds its calls").merge(&tally);
        Ok(())
    }
}

/// Poses all calls of a part.
fn pose_all(part: Part, judge: &mut Judge<'_>, seed: u64, items: u64) -> Result<(), String> {
    let outcome = match part {
        Part::Farm => farm::run(judge),
        Part::Check => checks::run(judge, seed, items),
        Part::Step => steps::run(judge, seed, items),
        Part::Edit => edits::run(judge, seed, items),
        Part::Carry => carries::run(judge, seed, items),
        Part::Batch => batches::run(judge, seed, items),
        Part::Circle => circles::run(judge, seed, items),
        Part::Commute => commute::run(judge, seed, items),
        Part::Trees => trees::run(judge, seed, items),
    };
    outcome.map_err(|Difference(told)| told)
}
