//! What must come up about carries, by numbers at every boundary and over accepted edits.

use super::{lists_of, note, Note, CARRY, CIRCLE, MOST_ROWS};
use crate::case::{Answer, Call, Carry, Case, Step};

pub static CARRIES: [Note; 22] = [
    note(CARRY, "old count 0", 1_000, |case, _| case.count == 0),
    note(CARRY, "old count 4,097", 1_000, |case, _| case.count == MOST_ROWS + 1),
    note(CARRY, "old count 4,096, accepted", 50, |case, answer| {
        answer.refusal == 0 && case.count == MOST_ROWS
    }),
    note(CARRY, "first moved row 0", 1_000, |case, answer| {
        answer.refusal == 17 && carry_of(case).first == 0
    }),
    note(CARRY, "first moved row one above the old count", 1_000, |case, answer| {
        answer.refusal == 17 && carry_of(case).first == case.count + 1
    }),
    note(CARRY, "the largest first moved row", 1_000, |case, answer| {
        answer.refusal == 17 && carry_of(case).first == usize::MAX
    }),
    note(CARRY, "first moved row the old count, accepted", 1_000, |case, answer| {
        answer.refusal == 0 && carry_of(case).first == case.count
    }),
    note(CARRY, "first moved row falls one below row 0, some rows left", 1_000, |case, answer| {
        answer.refusal == 17 && comes_to(case) == -1 && new_count(case) >= 1
    }),
    note(CARRY, "the same, and too little room as well", 1_000, |case, answer| {
        let bad_move = answer.refusal == 17 && comes_to(case) == -1 && new_count(case) >= 1;
        bad_move && lists_of(case).room() == 0 && !lists_of(case).row.is_empty()
    }),
    note(CARRY, "first moved row comes to row 0, accepted", 1_000, |case, answer| {
        answer.refusal == 0 && comes_to(case) == 0
    }),
    note(CARRY, "first moved row comes to row 1, accepted", 1_000, |case, answer| {
        answer.refusal == 0 && comes_to(case) == 1
    }),
    note(CARRY, "new count 0", 1_000, |case, answer| answer.refusal == 17 && new_count(case) == 0),
    note(CARRY, "new count 1, accepted", 1_000, |case, answer| {
        answer.refusal == 0 && new_count(case) == 1
    }),
    note(CARRY, "new count 4,096, accepted", 1_000, |case, answer| {
        answer.refusal == 0 && new_count(case) == MOST_ROWS as i128
    }),
    note(CARRY, "new count 4,097", 1_000, |case, answer| {
        answer.refusal == 17 && new_count(case) == MOST_ROWS as i128 + 1
    }),
    note(CARRY, "the least move there is", 500, |case, answer| {
        answer.refusal == 17 && carry_of(case).moved == i64::MIN
    }),
    note(CARRY, "the largest move there is", 500, |case, answer| {
        answer.refusal == 17 && carry_of(case).moved == i64::MAX
    }),
    note(CARRY, "a pair out of order, a row not in use and a bad move", 50, |case, answer| {
        let outside = lists_of(case).row.iter().any(|&row| row >= case.count);
        answer.refusal == 4 && outside && carry_of(case).first == 0
    }),
    note(CARRY, "a bad move, and too little room as well", 1_000, |case, answer| {
        answer.refusal == 17 && lists_of(case).room() == 0 && !lists_of(case).row.is_empty()
    }),
    note(CARRY, "a bad move of no pairs", 1_000, |case, answer| {
        answer.refusal == 17 && lists_of(case).row.is_empty()
    }),
    note(CARRY, "some pairs dropped, some moved", 1_000, |case, answer| {
        let Carry { lists, first, .. } = carry_of(case);
        let moved = lists.row.iter().filter(|&row| row >= first).count();
        moved > 0 && answer.first >= moved && answer.first < lists.row.len()
    }),
    note(CARRY, "all pairs dropped", 1_000, |case, answer| {
        answer == Answer::default() && !lists_of(case).row.is_empty()
    }),
];

/// Carries over accepted edits, and the steps after them.
pub static CIRCLES: [Note; 9] = [
    note(CIRCLE, "an insertion that moves a pair", 1_000, |case, _| {
        carries(case, |carry| carry.moved > 0 && moves_a_pair(carry))
    }),
    note(CIRCLE, "a deletion that moves a pair", 1_000, |case, _| {
        carries(case, |carry| carry.moved < 0 && moves_a_pair(carry))
    }),
    note(CIRCLE, "a deletion that drops a pair", 1_000, |case, answer| {
        carries(case, |carry| answer.first < carry.lists.row.len())
    }),
    note(CIRCLE, "a deletion that drops no pair", 1_000, |case, answer| {
        carries(case, |carry| carry.moved < 0 && answer.first == carry.lists.row.len())
    }),
    note(CIRCLE, "a rename", 1_000, |case, _| carries(case, |carry| carry.moved == 0)),
    note(CIRCLE, "an edit at the very end", 1_000, |case, _| {
        carries(case, |carry| carry.moved != 0 && carry.first == case.count)
    }),
    note(CIRCLE, "a pair on the first moved row", 1_000, |case, _| {
        carries(case, |carry| carry.lists.row.contains(&carry.first))
    }),
    note(CIRCLE, "a pair on the last deleted row", 1_000, |case, _| {
        carries(case, |carry| carry.moved < 0 && carry.lists.row.contains(&(carry.first - 1)))
    }),
    note(CIRCLE, "a step with carried pairs, accepted", 1_000, |case, answer| {
        let steps = |step: &Step| answer.refusal == 0 && !step.lists.row.is_empty();
        matches!(&case.call, Call::Step(step) if steps(step))
    }),
];

fn carry_of(case: &Case) -> &Carry {
    match &case.call {
        Call::Carry(carry) => carry,
        _ => unreachable!("this part poses only carries"),
    }
}

/// Whether the call is a carry of which this holds.
fn carries(case: &Case, holds: impl Fn(&Carry) -> bool) -> bool {
    matches!(&case.call, Call::Carry(carry) if holds(carry))
}

fn moves_a_pair(carry: &Carry) -> bool {
    carry.lists.row.iter().any(|&row| row >= carry.first)
}

/// Where the first moved row comes to.
fn comes_to(case: &Case) -> i128 {
    carry_of(case).first as i128 + i128::from(carry_of(case).moved)
}

fn new_count(case: &Case) -> i128 {
    case.count as i128 + i128::from(carry_of(case).moved)
}
