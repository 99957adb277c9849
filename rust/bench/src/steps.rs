//! Steps on a plant of 4,096 rows.

use crate::race::{Race, Times};
use crate::report::Group;
use crate::tables::plant;
use lent::{scattered_key, Columns};
use std::ops::Range;

/// The geometric mean of all steps against plain Rust, and the worst.
const MEAN_BAR: f64 = 1.2;
const WORST_BAR: f64 = 2.0;

pub const ROWS: usize = 4_096;
/// A blade of a turbine in the middle.
const BLADE: usize = 32 * 64 + 2;
/// No step here has more results: 200 roles with all rows each.
const ROOM: usize = 200 * ROWS;

/// What a step lends beside the table.
pub struct Step {
    pub role: Vec<usize>,
    pub row: Vec<usize>,
    pub axis: usize,
    pub test: usize,
    pub test_name: usize,
    pub out_role: Vec<usize>,
    pub out_row: Vec<usize>,
}

impl Step {
    /// A step for these pairs, to be given an axis and a test.
    pub fn new(pairs: Vec<(usize, usize)>) -> Step {
        let (role, row) = pairs.into_iter().unzip();
        let (out_role, out_row) = (vec![0; ROOM], vec![0; ROOM]);
        Step { role, row, axis: 1, test: 0, test_name: 0, out_role, out_row }
    }

    pub fn any_node(&mut self, axis: usize) -> &mut Step {
        (self.axis, self.test, self.test_name) = (axis, 0, 0);
        self
    }

    /// Asks for elements of a name that the axis can come to.
    pub fn named(&mut self, axis: usize) -> &mut Step {
        let name = match axis {
            5 => 3,
            6 | 7 => 2,
            _ => 4,
        };
        (self.axis, self.test, self.test_name) = (axis, 2, name);
        self
    }
}

pub fn run(race: &Race) {
    let table = plant(ROWS);
    let mut group = Group::new("step, microseconds a call");
    let mut desk = Step::new(desk_pairs(0..ROWS));
    for axis in 1..=11 {
        let times = time(race, &table, desk.any_node(axis));
        group.line(&format!("200 roles, 4,000 pairs, axis {axis}, any"), times);
        let times = time(race, &table, desk.named(axis));
        group.line(&format!("200 roles, 4,000 pairs, axis {axis}, named"), times);
    }
    let mut lone = Step::new(vec![(5, BLADE)]);
    for axis in [2, 3, 6, 10] {
        let times = time(race, &table, lone.any_node(axis));
        group.line(&format!("one role, one pair, axis {axis}"), times);
    }
    let mut crowd = Step::new((0..ROWS).map(|row| (row, row)).collect());
    for axis in [2, 5, 6, 10, 11] {
        let times = time(race, &table, crowd.any_node(axis));
        group.line(&format!("4,096 roles, one pair each, axis {axis}"), times);
    }
    let mut owner = Step::new((0..ROWS).map(|row| (5, row)).collect());
    for axis in 1..=11 {
        let times = time(race, &table, owner.any_node(axis));
        group.line(&format!("one role, 4,096 pairs, axis {axis}"), times);
    }
    group.mean_and_worst(MEAN_BAR, WORST_BAR);
}

pub fn time(race: &Race, table: &Columns, step: &mut Step) -> Times {
    race.time(|engine| engine.step(table, step))
}

/// 200 roles with 20 pairs each, at rows without a pattern.
pub fn desk_pairs(rows: Range<usize>) -> Vec<(usize, usize)> {
    spread_pairs(200, 20, rows)
}

/// So many roles with so many pairs each, at rows without a pattern.
pub fn spread_pairs(roles: usize, each: usize, rows: Range<usize>) -> Vec<(usize, usize)> {
    let mut pairs: Vec<(usize, usize)> = Vec::new();
    for role in 0..roles {
        let mut number = role * 1_000;
        let start = pairs.len();
        while pairs.len() < start + each {
            number += 1;
            let pair = (role, rows.start + scattered_key(number) % rows.len());
            if !pairs[start..].contains(&pair) {
                pairs.push(pair);
            }
        }
    }
    pairs.sort_unstable();
    pairs
}
