//! Ways to spoil a table.

use crate::random::Random;
use lent::Columns;

/// Spoils one to three things, so that several refusals can apply at once. The table has at
/// least `count` rows, and `count` is not 0.
pub fn spoil(random: &mut Random, table: &mut Columns, count: &mut usize) {
    for _ in 0..random.pick(&[1, 1, 1, 2, 3]) {
        let rows = table.shortest().min(*count);
        if rows == 0 || random.chance(15) {
            spoil_count(random, table, count);
        } else {
            let row = random.below(rows);
            spoil_row(random, table, row);
        }
    }
}

/// Makes the count 0, too large for every table, or too large for one column.
fn spoil_count(random: &mut Random, table: &mut Columns, count: &mut usize) {
    match random.below(6) {
        0 => *count = 0,
        1 => *count = table.shortest() + 1,
        2 => *count = random.pick(&[4_096, 4_097, usize::MAX, usize::MAX - 1]),
        3 => *count = random.within(1, 20),
        _ => {
            let column = random.pick(&[0, 1, 2, 3, 4]);
            let short = random.below((*count).max(1));
            table.each_mut()[column].truncate(short);
        }
    }
}

/// Breaks, as a rule, one of the five rules at the row; now and then the row stays sound.
fn spoil_row(random: &mut Random, table: &mut Columns, row: usize) {
    match random.below(7) {
        0 => table.level[row] = other_level(random, table, row),
        1 => table.size[row] = near(random, table.size[row]),
        2 => table.kind[row] = random.pick(&[0, 1, 2, 3, 4, 5, 6, usize::MAX]),
        3 => table.name[row] = random.pick(&[0, 0, 1, 2, usize::MAX]),
        4 => table.key[row] = random.pick(&[0, usize::MAX, 1]),
        // A document, which is sound where a tree starts.
        5 => (table.kind[row], table.name[row]) = (0, 0),
        _ => {
            let other = random.below(table.shortest());
            table.key[row] = table.key[other];
        }
    }
}

/// Gives one of the first `rows` rows the key of an earlier one: of the first, the one before, or
/// any.
pub fn repeat_key(random: &mut Random, table: &mut Columns, rows: usize) {
    if rows > 1 {
        let row = random.within(1, rows - 1);
        let between = random.below(row);
        table.key[row] = table.key[random.pick(&[0, row - 1, between])];
    }
}

fn other_level(random: &mut Random, table: &Columns, row: usize) -> usize {
    let before = if row == 0 { 0 } else { table.level[row - 1] };
    match random.below(8) {
        0 => 0,
        1 => 1,
        2 => before.saturating_add(1),
        3 => before.saturating_add(2),
        4 => random.pick(&[63, 64, 65]),
        5 => usize::MAX,
        _ => near(random, table.level[row]),
    }
}

/// The number, a little more or less, or something quite different.
fn near(random: &mut Random, number: usize) -> usize {
    match random.below(8) {
        0 | 1 => number.wrapping_add(1),
        2 | 3 => number.wrapping_sub(1),
        4 => 0,
        5 => random.within(0, 12),
        6 => usize::MAX,
        _ => random.number(),
    }
}
