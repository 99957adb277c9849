//! Checks.

use crate::race::{Race, Times};
use crate::report::{counted, figure, Group};
use crate::tables::{all_kinds, deep, flat};
use lent::{key_of, Columns};

/// At 4,096 flat rows the check takes at most so many times what plain Rust takes.
const CHECK_BAR: f64 = 1.3;
/// Twice the rows take at most so many times the time.
pub const GROWTH_BAR: f64 = 2.3;

/// Makes a table of so many rows.
pub type Shape = fn(usize) -> Columns;

pub const SHAPES: [(&str, Shape); 3] =
    [("flat", flat), ("63 deep", deep), ("all kinds", all_kinds)];

pub fn run(race: &Race) {
    let mut group = Group::new("check, microseconds a call");
    for (name, shape) in SHAPES {
        for rows in [1, 8, 24, 64, 512, 4_096] {
            let times = check_time(race, &shape(rows));
            let line = format!("{}, {name}", counted(rows));
            match (rows, name) {
                (4_096, "flat") => group.line_with_bar(&line, times, CHECK_BAR),
                _ => group.line(&line, times),
            }
        }
    }
    group.mean();
    one_bucket(race);
    println!();
    println!("growth of the library's check");
    for (name, shape) in SHAPES {
        let half = check_time(race, &shape(2_048)).ours;
        let whole = check_time(race, &shape(4_096)).ours;
        figure(&format!("4,096 over 2,048 rows, {name}"), whole / half, GROWTH_BAR);
    }
}

fn check_time(race: &Race, table: &Columns) -> Times {
    race.time(|engine| engine.check(table))
}

/// The keys that the library's check is slowest on: all in one of its buckets, so that it compares
/// each with all before it. For plain Rust they are keys like others. No bar is held to it.
fn one_bucket(race: &Race) {
    let mut group = Group::new("check, keys in one bucket of the library");
    for rows in [64, 512, 4_096] {
        let key = (1..=rows).map(|number| key_of(number as u32, 0)).collect();
        let times = check_time(race, &Columns { key, ..flat(rows) });
        group.line(&format!("{}, flat", counted(rows)), times);
    }
}
