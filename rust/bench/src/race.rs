//! Times two programs by turns, so that what else the machine does hits both.

use crate::engine::{Engine, Seen};
use lent::Columns;
use std::hint::black_box;
use std::time::{Duration, Instant};

/// The two programs of a race.
pub struct Race {
    pub ours: Box<dyn Engine>,
    pub plain: Box<dyn Engine>,
}

/// Microseconds a call, the least of many rounds.
#[derive(Clone, Copy)]
pub struct Times {
    pub ours: f64,
    pub plain: f64,
}

impl Times {
    const NONE: Times = Times { ours: f64::INFINITY, plain: f64::INFINITY };

    pub fn ratio(&self) -> f64 {
        self.ours / self.plain
    }

    fn take(&mut self, ours: f64, plain: f64) {
        self.ours = self.ours.min(ours);
        self.plain = self.plain.min(plain);
    }
}

/// How long a round should take, and how many there are.
const ROUND: Duration = Duration::from_micros(500);
const ROUNDS: usize = 100;
/// Edits are timed one by one: so many, or fewer where they take long, as hundreds in one call do.
const EDITS: usize = ROUNDS * 20;
const ALL_EDITS: Duration = Duration::from_millis(200);

impl Race {
    /// Times a call that can be repeated as it is. Both programs must answer it alike.
    pub fn time(&self, mut call: impl FnMut(&dyn Engine) -> Seen) -> Times {
        assert_eq!(call(&*self.ours), call(&*self.plain), "both programs answer alike");
        let calls = calls_in_a_round(&mut || call(&*self.ours));
        let mut best = Times::NONE;
        for _ in 0..ROUNDS {
            let ours = round(calls, &mut || call(&*self.ours));
            let plain = round(calls, &mut || call(&*self.plain));
            best.take(ours, plain);
        }
        best
    }

    /// Times a call that changes the table; outside the timing the table is restored.
    pub fn time_edit(
        &self,
        start: &Columns,
        call: impl Fn(&dyn Engine, &mut Columns) -> Seen,
    ) -> Times {
        let mut table = start.clone();
        let mut edit = |engine: &dyn Engine| {
            restore(&mut table, start);
            let started = Instant::now();
            let seen = black_box(call(engine, &mut table));
            (started.elapsed().as_secs_f64() * 1e6, seen)
        };
        assert_eq!(edit(&*self.ours).1, edit(&*self.plain).1, "both programs answer alike");
        let mut best = Times::NONE;
        let started = Instant::now();
        for round in 0..EDITS {
            if round >= ROUNDS && started.elapsed() > ALL_EDITS {
                break;
            }
            let ours = edit(&*self.ours).0;
            let plain = edit(&*self.plain).0;
            best.take(ours, plain);
        }
        best
    }
}

/// Makes every column as it was at the start, without a new allocation.
fn restore(table: &mut Columns, start: &Columns) {
    for (column, start) in table.each_mut().into_iter().zip(start.each()) {
        column.copy_from_slice(start);
    }
}

fn calls_in_a_round(call: &mut dyn FnMut() -> Seen) -> u32 {
    let started = Instant::now();
    let mut calls = 0;
    while started.elapsed() < ROUND {
        black_box(call());
        calls += 1;
    }
    calls
}

/// Microseconds a call in one round.
fn round(calls: u32, call: &mut dyn FnMut() -> Seen) -> f64 {
    let started = Instant::now();
    for _ in 0..calls {
        black_box(call());
    }
    started.elapsed().as_secs_f64() * 1e6 / f64::from(calls)
}
