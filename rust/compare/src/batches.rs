//! Random batches.

use crate::case::{Call, Case};
use crate::damage::{repeat_key, spoil};
use crate::items::{roots_deleted, some_items, spoil_items};
use crate::judge::{Difference, Judge};
use crate::keys::sharing_rows;
use crate::one_by_one;
use crate::options::Part;
use crate::random::Random;
use crate::series::{self, Series};
use crate::tables::{add_spare_rows, lengthen, sound, sound_below, sound_sharing, sound_trees};
use lent::{Columns, Items};

/// How many batches on small tables the default run makes.
pub const CALLS: u64 = 240_000;

/// Small tables, then tall ones about the deepest level, then lists about the most items, then
/// large tables about the most rows and the most trees, then some whose keys share buckets. Each
/// batch is held against its items one by one too.
pub fn run(judge: &mut Judge<'_>, seed: u64, calls: u64) -> Result<(), Difference> {
    let all: [Series; 6] = [
        ("batch small", calls, small),
        ("batch tall", calls / 40, tall),
        ("batch long", calls / 40, long),
        ("batch large", calls / 800, large),
        ("batch most trees", calls / 2_400, most_trees),
        ("batch shared buckets", calls / 60, shared_buckets),
    ];
    series::run(Part::Batch, seed, &all, |_, case| one_by_one::pose(judge, case))
}

/// A few items for a table of 1 to 12 rows; now and then all its roots are to go.
fn small(random: &mut Random) -> Case {
    let rows = random.within(1, 12);
    let mut table = sound(random, rows, 12);
    add_spare_rows(random, &mut table, 6);
    let items = match random.below(10) {
        0 => roots_deleted(random, &table, rows),
        _ => {
            let length = random.within(0, 10);
            some_items(random, &table, rows, length)
        }
    };
    maybe_spoiled(random, table, rows, items)
}

/// Rows of which many have up to 63 others above them.
fn tall(random: &mut Random) -> Case {
    let chain = random.within(55, 62);
    let rows = chain + random.within(2, 30);
    let mut table = sound_below(random, chain, rows - chain);
    add_spare_rows(random, &mut table, 6);
    let length = random.within(1, 20);
    let items = some_items(random, &table, rows, length);
    maybe_spoiled(random, table, rows, items)
}

/// About as many items as there can be, also for tables with fewer rows than that. Where the rows
/// come to more than 256 the library has other arrays.
fn long(random: &mut Random) -> Case {
    let rows = match random.below(10) {
        0 => random.pick(&[256, 257]),
        _ => random.within(1, 300),
    };
    let mut table = sound(random, rows, 63);
    add_spare_rows(random, &mut table, 6);
    let length = random.pick(&[254, 255, 256, 256, 256, 257, 300]);
    let mut items = some_items(random, &table, rows, length);
    if random.chance(20) {
        items.key[length - 1] = 0;
    }
    maybe_spoiled(random, table, rows, items)
}

/// A table of up to 4,096 rows, as a rule with as many items as there can be.
fn large(random: &mut Random) -> Case {
    let rows = match random.below(4) {
        0 | 1 => 4_096,
        2 => random.pick(&[4_090, 4_095]),
        _ => random.within(513, 4_096),
    };
    let mut table = sound(random, rows, 63);
    add_spare_rows(random, &mut table, 6);
    let length = random.pick(&[100, 255, 256, 256, 256, 257]);
    let items = some_items(random, &table, rows, length);
    Case { table, count: rows, call: Call::Batch(items) }
}

/// A table of as many trees as it can have, of one row each.
fn most_trees(random: &mut Random) -> Case {
    let rows = 4_096;
    let table = sound_trees(random, rows, rows, 63);
    let items = some_items(random, &table, rows, 256);
    Case { table, count: rows, call: Call::Batch(items) }
}

/// A table whose keys share buckets, with further keys of these buckets in spare rows, for some of
/// which the list asks.
fn shared_buckets(random: &mut Random) -> Case {
    let rows = sharing_rows(random).min(1_100);
    let (mut table, others) = sound_sharing(random, rows, 3);
    for column in table.each_mut() {
        lengthen(random, column, others.len());
    }
    table.key[rows..].copy_from_slice(&others);
    let length = random.within(1, 20);
    let mut items = some_items(random, &table, rows, length);
    if random.chance(20) {
        let place = random.below(length);
        items.key[place] = random.pick(&others);
    }
    if random.chance(10) {
        repeat_key(random, &mut table, rows);
    }
    Case { table, count: rows, call: Call::Batch(items) }
}

/// Most tables and lists stay as they are; where the one is spoiled, so is the other now and then.
fn maybe_spoiled(random: &mut Random, mut table: Columns, rows: usize, mut items: Items) -> Case {
    let mut count = rows;
    let (spoils_table, spoils_items) = match random.below(20) {
        0 => (true, true),
        1 => (true, false),
        2 | 3 => (false, true),
        _ => (false, false),
    };
    if spoils_table {
        spoil(random, &mut table, &mut count);
    }
    if spoils_items {
        spoil_items(random, &mut items);
    }
    Case { table, count, call: Call::Batch(items) }
}
