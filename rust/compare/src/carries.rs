//! Random carries, by numbers that an edit may have answered or not.

use crate::case::{Carry, Case};
use crate::judge::{Difference, Judge};
use crate::lists::{few_pairs, lend_some_room, pose_twice, some_pairs};
use crate::options::Part;
use crate::random::Random;
use crate::series::{self, Series};

/// How many calls for small tables the default run makes.
pub const CALLS: u64 = 400_000;

/// Small tables, then large ones about the most rows and pairs. Each carry is posed twice, the
/// second time with room by the first answer.
pub fn run(judge: &mut Judge<'_>, seed: u64, calls: u64) -> Result<(), Difference> {
    let all: [Series; 2] = [("carry small", calls / 2, small), ("carry large", calls / 500, large)];
    series::run(Part::Carry, seed, &all, |random, case| pose_twice(judge, random, case))
}

/// Some pairs of a table of 1 to 12 rows.
fn small(random: &mut Random) -> Case {
    let old_count = random.within(1, 12);
    let pairs = few_pairs(random);
    let roles = random.within(1, 4);
    finished(random, old_count, pairs, roles)
}

/// Up to 4,097 pairs of a table of up to 4,096 rows.
fn large(random: &mut Random) -> Case {
    let old_count = match random.below(4) {
        0 => 4_096,
        1 => random.pick(&[4_090, 4_095]),
        _ => random.within(13, 4_096),
    };
    let pairs = match random.below(4) {
        0 => random.within(0, 4_096),
        1 => 4_097,
        _ => 4_096,
    };
    let roles = random.pick(&[1, 200, 4_096]);
    finished(random, old_count, pairs, roles)
}

/// Adds the pairs and the numbers of an edit, and spoils some of it.
fn finished(random: &mut Random, old_count: usize, pairs: usize, roles: usize) -> Case {
    let mut lists = some_pairs(random, pairs, roles, old_count);
    let first = some_first(random, old_count);
    let moved = some_move(random, old_count, first);
    lend_some_room(random, &mut lists);
    let count = match random.below(100) {
        0..=5 => random.pick(&[0, 1, 4_096, 4_097, usize::MAX]),
        _ => old_count,
    };
    Case::of_carry(count, Carry { lists, first, moved })
}

/// A first moved row: as a rule one that an edit can answer.
fn some_first(random: &mut Random, old_count: usize) -> usize {
    match random.below(20) {
        0 => 0,
        1 => old_count + 1,
        2 => random.pick(&[usize::MAX, usize::MAX - old_count, 4_096, 4_097]),
        3..=6 => old_count,
        _ => random.within(1, old_count),
    }
}

/// A move: as a rule that of a deletion or an insertion, else one by which the first moved row or
/// the count comes to a boundary, or no move that an edit could make.
fn some_move(random: &mut Random, old_count: usize, first: usize) -> i64 {
    let so_that = |from: usize, comes_to: i64| comes_to.wrapping_sub(from as i64);
    match random.below(20) {
        0 | 1 => so_that(first, random.pick(&[-1, 0, 1])),
        2..=4 => so_that(old_count, random.pick(&[0, 1, 4_096, 4_097])),
        5 => random.pick(&[i64::MIN, i64::MIN + 1, i64::MAX, i64::MAX - 1, -(1 << 32), 1 << 32]),
        6 => random.number() as i64,
        7 => 0,
        8..=11 => random.within(1, 12) as i64,
        _ => -(random.within(0, first.clamp(1, old_count)) as i64),
    }
}
