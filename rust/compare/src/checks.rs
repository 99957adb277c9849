//! Random calls of check and find.

use crate::case::{Call, Case};
use crate::damage::{repeat_key, spoil};
use crate::judge::{Difference, Judge};
use crate::keys::sharing_rows;
use crate::options::Part;
use crate::random::Random;
use crate::series::{self, Series};
use crate::tables::{
    add_spare_rows, lengthen, some_key, sound, sound_below, sound_sharing, sound_trees,
};
use lent::Columns;

/// How many calls on small tables the default run makes.
pub const CALLS: u64 = 300_000;

/// Small tables, then tall ones about the deepest level, then large ones about the most rows and
/// the most trees, then some whose keys share buckets, then finds of rows deep down and far from
/// their parents.
pub fn run(judge: &mut Judge<'_>, seed: u64, calls: u64) -> Result<(), Difference> {
    let all: [Series; 7] = [
        ("check small", calls, small),
        ("check tall", calls / 8, tall),
        ("check large", calls / 300, large),
        ("check most trees", calls / 1_200, most_trees),
        ("check shared buckets", calls / 60, shared_buckets),
        ("find deep down", calls / 60, deep_down),
        ("find far from the parent", calls / 600, far_from_parent),
    ];
    series::run(Part::Check, seed, &all, |_, case| judge.pose(case).map(drop))
}

/// A table of 1 to 12 rows.
fn small(random: &mut Random) -> Case {
    let rows = random.within(1, 12);
    let mut table = sound(random, rows, 12);
    add_spare_rows(random, &mut table, 3);
    maybe_spoiled(random, table, rows)
}

/// A tree about 64 rows long that may go down to level 64 and more, or a few such trees.
fn tall(random: &mut Random) -> Case {
    let trees = random.pick(&[1, 2, 2, 3]);
    let rows = random.within(62, 80) + 30 * (trees - 1);
    let deepest = random.pick(&[62, 63, 63, 63, 63, 64]);
    let mut table = sound_trees(random, rows, trees, deepest);
    add_spare_rows(random, &mut table, 3);
    maybe_spoiled(random, table, rows)
}

/// A table of up to 4,096 rows, or 4,097.
fn large(random: &mut Random) -> Case {
    let rows = match random.below(4) {
        0 => 4_096,
        1 => random.pick(&[4_095, 4_097, 4_097]),
        _ => random.within(13, 4_096),
    };
    let mut table = sound(random, rows, 63);
    for column in table.each_mut() {
        let spare = random.pick(&[0, 1, 100]);
        lengthen(random, column, spare);
    }
    maybe_spoiled(random, table, rows)
}

/// About as many trees as a table can have, of one row each.
fn most_trees(random: &mut Random) -> Case {
    let rows = random.pick(&[4_095, 4_096, 4_096, 4_096, 4_096, 4_097]);
    let mut table = sound_trees(random, rows, rows, 63);
    add_spare_rows(random, &mut table, 3);
    maybe_spoiled(random, table, rows)
}

/// A table whose keys share buckets, with a further key of these buckets in a spare row; another
/// such key is nowhere.
fn shared_buckets(random: &mut Random) -> Case {
    let rows = sharing_rows(random);
    let (mut table, others) = sound_sharing(random, rows, 2);
    let (held, spare, missing) = (table.key[random.below(rows)], others[0], others[1]);
    table.key.push(spare);
    add_spare_rows(random, &mut table, 3);
    let mut count = rows;
    match random.below(10) {
        0 => spoil(random, &mut table, &mut count),
        1..=3 => repeat_key(random, &mut table, rows),
        _ => {}
    }
    let key_wanted = random.pick(&[held, spare, missing]);
    let call = if random.chance(40) { Call::Check } else { Call::Find { key_wanted } };
    Case { table, count, call }
}

/// A row below a chain, which has at most a few siblings before it.
fn deep_down(random: &mut Random) -> Case {
    let rows = random.within(2, 20);
    last_child(random, rows)
}

/// A row below a chain, as a rule with more than a thousand rows between it and its parent.
fn far_from_parent(random: &mut Random) -> Case {
    let rows = random.within(1_100, 4_000);
    last_child(random, rows)
}

/// Finds the last child of the row that stands above so many others, at the end of a chain.
fn last_child(random: &mut Random, rows: usize) -> Case {
    let any = random.within(0, 62);
    let chain = random.pick(&[0, any, 62]);
    let mut table = sound_below(random, chain, rows);
    let row = table.level.iter().rposition(|&level| level == chain + 1);
    let key_wanted = table.key[row.expect("the first of the rows has a child")];
    add_spare_rows(random, &mut table, 3);
    let mut count = chain + rows;
    if random.chance(5) {
        spoil(random, &mut table, &mut count);
    }
    Case { table, count, call: Call::Find { key_wanted } }
}

/// Half of the tables stay sound.
fn maybe_spoiled(random: &mut Random, mut table: Columns, rows: usize) -> Case {
    let mut count = rows;
    if random.chance(50) {
        spoil(random, &mut table, &mut count);
    }
    let call = if random.chance(40) {
        Call::Check
    } else {
        Call::Find { key_wanted: some_key(random, &table, count) }
    };
    Case { table, count, call }
}
