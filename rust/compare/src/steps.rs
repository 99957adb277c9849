//! Random steps.

use crate::case::{Call, Case, Step};
use crate::damage::spoil;
use crate::judge::{Difference, Judge};
use crate::lists::{few_pairs, lend_some_room, pose_twice, some_pairs};
use crate::options::Part;
use crate::random::Random;
use crate::series::{self, Series};
use crate::tables::{add_spare_rows, sound, sound_trees};
use lent::Columns;

/// How many calls on small tables the default run makes.
pub const CALLS: u64 = 400_000;

/// Small tables, then larger ones, then some of the most trees. Each step is posed twice, the
/// second time with room by the first answer.
pub fn run(judge: &mut Judge<'_>, seed: u64, calls: u64) -> Result<(), Difference> {
    let all: [Series; 4] = [
        ("step small", calls / 2, small),
        ("step middle", calls / 40, middle),
        ("step large", calls / 400, large),
        ("step most trees", calls / 4_000, most_trees),
    ];
    series::run(Part::Step, seed, &all, |random, case| pose_twice(judge, random, case))
}

/// A table of 1 to 12 rows with some pairs.
fn small(random: &mut Random) -> Case {
    let rows = random.within(1, 12);
    let mut table = sound(random, rows, 12);
    add_spare_rows(random, &mut table, 3);
    let pairs = few_pairs(random);
    let roles = random.within(1, 4);
    finished(random, table, rows, pairs, roles)
}

/// A table of up to 150 rows with up to as many pairs.
fn middle(random: &mut Random) -> Case {
    let rows = random.within(13, 150);
    let deepest = random.pick(&[2, 5, 63]);
    let mut table = sound(random, rows, deepest);
    add_spare_rows(random, &mut table, 3);
    let pairs = random.within(0, 150);
    let roles = random.within(1, 20);
    finished(random, table, rows, pairs, roles)
}

/// A table of up to 4,096 rows with up to 4,096 pairs of up to as many roles.
fn large(random: &mut Random) -> Case {
    let most = random.pick(&[300, 2_000, 4_096]);
    let rows = if random.chance(40) { most } else { random.within(13, most) };
    let deepest = random.pick(&[3, 8, 63]);
    let mut table = sound(random, rows, deepest);
    add_spare_rows(random, &mut table, 2);
    let pairs = if random.chance(40) { most } else { random.within(0, most) };
    let roles = match random.below(5) {
        0 => 1,
        1 => random.within(2, 200),
        _ => 4_096,
    };
    finished(random, table, rows, pairs, roles)
}

/// 4,096 rows with half as many trees or as many, and pairs of many roles over all of them.
fn most_trees(random: &mut Random) -> Case {
    let rows = 4_096;
    let trees = random.pick(&[2_048, 4_096, 4_096]);
    let table = sound_trees(random, rows, trees, 63);
    let pairs = random.pick(&[500, 1_000, 2_000]);
    let roles = random.pick(&[1, 200, 200, 200, 4_096]);
    let mut case = finished(random, table, rows, pairs, roles);
    if let (Call::Step(step), true) = (&mut case.call, random.chance(50)) {
        // These count the trees of every role.
        step.axis = random.pick(&[8, 9]);
    }
    case
}

/// Adds pairs and a question, and spoils some of it.
fn finished(random: &mut Random, table: Columns, rows: usize, pairs: usize, roles: usize) -> Case {
    let mut table = table;
    let mut count = rows;
    let mut step = question(random);
    step.lists = some_pairs(random, pairs, roles, rows);
    if random.chance(8) {
        spoil(random, &mut table, &mut count);
    }
    lend_some_room(random, &mut step.lists);
    Case { table, count, call: Call::Step(step) }
}

/// An axis and a test with its name, and no pairs yet.
pub fn good_question(random: &mut Random) -> Step {
    let mut step =
        Step { axis: random.within(1, 11), test: random.within(0, 7), ..Step::default() };
    if matches!(step.test, 2 | 6) {
        step.test_name = random.within(1, 4);
    }
    step
}

/// The same, now and then with something bad about it.
fn question(random: &mut Random) -> Step {
    let mut step = good_question(random);
    match random.below(40) {
        0 => step.axis = random.pick(&[0, 12, 13, usize::MAX]),
        1 => step.test = random.pick(&[8, 9, usize::MAX]),
        2 => step.test_name = random.pick(&[0, 1, usize::MAX]),
        3 => step.axis = random.number(),
        _ => {}
    }
    step
}
