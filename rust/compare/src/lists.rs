//! Random lists of pairs, and room for results.

use crate::case::{Case, Lists};
use crate::judge::{Difference, Judge};
use crate::random::Random;
use crate::tables::garbage;

/// With more results than this, no exactly fitting columns are lent.
const MOST_ROOM: usize = 400_000;

/// Poses a call twice: the first answer says how much room the second time is exact, or too short
/// by one.
pub fn pose_twice(
    judge: &mut Judge<'_>,
    random: &mut Random,
    case: Case,
) -> Result<(), Difference> {
    let (answer, _) = judge.pose(case.clone())?;
    let results = if answer.refusal == 8 { answer.place } else { answer.first };
    judge.pose(with_room(random, case, results)).map(drop)
}

/// How many pairs a small table gets: some, now and then a long list of them.
pub fn few_pairs(random: &mut Random) -> usize {
    match random.below(1_000) {
        0..=2 => random.within(4_090, 4_100),
        3..=9 => random.within(13, 200),
        _ => random.within(0, 12),
    }
}

/// Up to so many pairs of up to so many roles, now and then bad ones, and no room yet.
pub fn some_pairs(random: &mut Random, pairs: usize, roles: usize, rows: usize) -> Lists {
    let (role, row) = ascending_pairs(random, pairs, roles, rows);
    let mut lists = Lists { role, row, ..Lists::default() };
    if random.chance(12) {
        spoil_pairs(random, &mut lists, rows);
    }
    lists
}

/// Up to so many pairs of up to so many roles, in their order; as a rule some are equal.
pub fn ascending_pairs(
    random: &mut Random,
    pairs: usize,
    roles: usize,
    rows: usize,
) -> (Vec<usize>, Vec<usize>) {
    let first = random.pick(&[0, 1, 5, usize::MAX - roles]);
    let (low, high) = if random.chance(50) {
        (0, rows - 1)
    } else {
        let low = random.below(rows);
        (low, random.within(low, rows - 1))
    };
    let mut list: Vec<(usize, usize)> =
        (0..pairs).map(|_| (first + random.below(roles), random.within(low, high))).collect();
    list.sort_unstable();
    if random.chance(30) {
        list.dedup();
    }
    list.into_iter().unzip()
}

/// Breaks the order, names rows that aren't in use, or makes the columns unequal.
fn spoil_pairs(random: &mut Random, lists: &mut Lists, rows: usize) {
    for _ in 0..random.pick(&[1, 1, 2, 3]) {
        let pairs = lists.row.len().min(lists.role.len());
        match random.below(5) {
            0 => lists.role.push(usize::MAX),
            1 => {
                lists.row.pop();
            }
            _ if pairs == 0 => lists.row.push(0),
            2 => {
                let place = random.below(pairs);
                lists.row[place] = random.pick(&[rows, rows, rows + 1, usize::MAX]);
            }
            3 => {
                let place = random.below(pairs);
                lists.role[place] = random.pick(&[0, usize::MAX]);
            }
            _ => {
                let (one, other) = (random.below(pairs), random.below(pairs));
                lists.row.swap(one, other);
            }
        }
    }
}

/// The same call with columns that just fit, are too short by one, are empty, or are longer; and
/// as a rule of unequal length.
fn with_room(random: &mut Random, mut case: Case, results: usize) -> Case {
    let results = results.min(MOST_ROOM);
    let shorter = match random.below(5) {
        0 | 1 => results,
        2 | 3 => results.saturating_sub(1),
        _ => results + random.within(1, 5),
    };
    let longer = shorter + random.pick(&[0, 0, 1, 7]);
    if let Some(lists) = case.lists_mut() {
        if random.chance(50) {
            lend_room(random, lists, shorter, longer);
        } else {
            lend_room(random, lists, longer, shorter);
        }
    }
    case
}

/// Lends result columns before it is known how much room is needed.
pub fn lend_some_room(random: &mut Random, lists: &mut Lists) {
    let room = if random.chance(50) { 0 } else { random.within(0, 60) };
    lend_room(random, lists, room, room);
}

/// Lends result columns that are full of garbage.
fn lend_room(random: &mut Random, lists: &mut Lists, roles: usize, rows: usize) {
    lists.out_role = garbage(random, roles);
    lists.out_row = garbage(random, rows);
}
