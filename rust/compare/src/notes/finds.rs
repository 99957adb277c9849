//! What must come up about finding a key: where its row stands, and several refusals at once.

use super::{note, Note, CHECK};
use crate::case::{Answer, Case, Entry};

/// A parent more than so many rows before its row is far.
const FAR: i64 = 1_000;

pub static FINDS: [Note; 9] = [
    note(CHECK, "a root found at row 0", 1_000, |case, answer| {
        finds(case, answer) && answer.parent == -1 && answer.row == 0
    }),
    note(CHECK, "a root found at a later row", 1_000, |case, answer| {
        finds(case, answer) && answer.parent == -1 && answer.row > 0
    }),
    note(CHECK, "a row found at level 63", 1_000, |case, answer| {
        finds(case, answer) && answer.level == 63
    }),
    note(CHECK, "a parent found directly before its row", 1_000, |case, answer| {
        finds(case, answer) && rows_back(answer) == Some(1)
    }),
    note(CHECK, "a parent found more than 1,000 rows before its row", 200, is_far),
    note(CHECK, "the same at level 63", 50, |case, answer| {
        is_far(case, answer) && answer.level == 63
    }),
    note(CHECK, "the same past rows that stand deeper", 50, |case, answer| {
        let past = |parent: usize| case.table.level[parent..answer.row].iter();
        is_far(case, answer) && past(answer.parent as usize).any(|&level| level > answer.level)
    }),
    note(CHECK, "an unsound table that lacks the key", 1_000, |case, answer| {
        answer.refusal == 2 && lacks_key(case)
    }),
    note(CHECK, "a bad count, and no row has the key", 1_000, |case, answer| {
        answer.refusal == 1 && lacks_key(case)
    }),
];

/// Whether the call is a find, and accepted.
fn finds(case: &Case, answer: Answer) -> bool {
    case.entry() == Entry::Find && answer.refusal == 0
}

/// How many rows the parent stands before its row.
fn rows_back(answer: Answer) -> Option<i64> {
    (answer.parent >= 0).then(|| answer.row as i64 - answer.parent)
}

fn is_far(case: &Case, answer: Answer) -> bool {
    finds(case, answer) && rows_back(answer).is_some_and(|rows| rows > FAR)
}

/// Whether the call names a key that no row has, in use or not.
fn lacks_key(case: &Case) -> bool {
    case.call.named_key().is_some_and(|key| !case.table.key.contains(&key))
}
