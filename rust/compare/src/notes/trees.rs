//! What must come up about several trees in one table.

use super::{lists_of, note, Note, CHECK, CIRCLE, EDIT, MOST_ROWS, STEP, TABLE};
use crate::case::{Answer, Call, Case, Step};
use crate::engine::{Engine, Second};
use crate::options::Part;

const TREE: &[Part] = &[Part::Trees];
const DELETE: &[Part] = &[Part::Edit, Part::Circle];

pub static TREES: [Note; 24] = [
    note(TABLE, "one tree of several rows, accepted", 1_000, |case, answer| {
        answer.refusal == 0 && case.count > 1 && trees(case) == 1
    }),
    note(TABLE, "several trees, accepted", 1_000, |case, answer| {
        answer.refusal == 0 && trees(case) > 1
    }),
    note(TABLE, "12 trees in a small table, accepted", 1_000, |case, answer| {
        answer.refusal == 0 && case.count == 12 && trees(case) == 12
    }),
    note(TABLE, "4,096 trees, accepted", 50, |case, answer| {
        answer.refusal == 0 && case.count == MOST_ROWS && trees(case) == MOST_ROWS
    }),
    note(TABLE, "a document at a later root, accepted", 1_000, |case, answer| {
        answer.refusal == 0 && case.table.kind[1..case.count].contains(&0)
    }),
    note(CHECK, "a document below a root in the least unsound row", 1_000, |case, answer| {
        answer.refusal == 2 && is_document_below(case, answer.place)
    }),
    note(CHECK, "level 63 in a later tree, accepted", 500, |case, answer| {
        answer.refusal == 0 && comes_after(case, 0, 63)
    }),
    note(CHECK, "a tree after level 63, accepted", 500, |case, answer| {
        answer.refusal == 0 && comes_after(case, 63, 0)
    }),
    note(STEP, "a role over several trees on axis 8 or 9, accepted", 1_000, |case, answer| {
        accepts_step(case, answer, [8, 9]) && roles_over_trees(case) > 0
    }),
    note(STEP, "several such roles, accepted", 1_000, |case, answer| {
        accepts_step(case, answer, [8, 9]) && roles_over_trees(case) > 1
    }),
    note(STEP, "100 such roles and 2,000 trees, accepted", 20, |case, answer| {
        let most = accepts_step(case, answer, [8, 9]) && trees(case) > 2_000;
        most && roles_over_trees(case) > 100
    }),
    note(STEP, "a pair on a later root on axis 10 or 11, accepted", 1_000, |case, answer| {
        accepts_step(case, answer, [10, 11])
            && lists_of(case).row.iter().any(|&row| is_later_root(case, row))
    }),
    note(DELETE, "the first of several roots deleted", 1_000, |case, answer| {
        deleted_root(case, answer) == Some(0)
    }),
    note(DELETE, "a root between others deleted", 1_000, |case, answer| {
        deleted_root(case, answer).is_some_and(|row| row > 0) && answer.second < case.count
    }),
    note(DELETE, "the last of several roots deleted", 1_000, |case, answer| {
        deleted_root(case, answer).is_some() && answer.second == case.count
    }),
    note(EDIT, "the only root of several rows, refused", 1_000, |case, answer| {
        answer.refusal == 15 && case.count > 1
    }),
    note(EDIT, "one of 4,096 roots deleted", 50, |case, answer| {
        deleted_root(case, answer).is_some() && trees(case) == MOST_ROWS
    }),
    note(
        EDIT,
        "a piece that is sound, has no document and several trees",
        1_000,
        |case, answer| answer.refusal == 10 && piece_is_sound_without_document(case),
    ),
    note(EDIT, "such a piece, and a parent that takes none", 1_000, |case, answer| {
        let takes_none = |row: usize| case.table.kind[row] > 1;
        answer.refusal == 10
            && named_row(case).is_some_and(takes_none)
            && piece_is_sound_without_document(case)
    }),
    note(EDIT, "an insertion before another tree", 1_000, |case, answer| {
        answer.moved > 0 && case.table.level[answer.second..case.count].contains(&0)
    }),
    note(EDIT, "an insertion under a later root", 1_000, |case, answer| {
        answer.moved > 0 && named_row(case).is_some_and(|row| is_later_root(case, row))
    }),
    note(CIRCLE, "row 0 deleted, and a pair moved", 1_000, |case, answer| {
        let Call::Carry(carry) = &case.call else { return false };
        carry.first as i64 + carry.moved == 0 && answer.first > 0
    }),
    note(CIRCLE, "a step over several trees, accepted", 1_000, |case, answer| {
        matches!(case.call, Call::Step(_)) && answer.refusal == 0 && trees(case) > 1
    }),
    note(TREE, "a role over several trees, with results", 1_000, |case, answer| {
        answer.first > 0 && roles_over_trees(case) > 0
    }),
];

/// The levels of the rows in use of a table that has them.
fn levels(case: &Case) -> &[usize] {
    &case.table.level[..case.count]
}

fn trees(case: &Case) -> usize {
    levels(case).iter().filter(|&&level| level == 0).count()
}

/// Whether, after row 0, a row of the one level comes before a row of the other.
fn comes_after(case: &Case, one: usize, other: usize) -> bool {
    let from_one = levels(case).iter().skip(1).skip_while(|&&level| level != one);
    from_one.skip(1).any(|&level| level == other)
}

fn is_later_root(case: &Case, row: usize) -> bool {
    row > 0 && case.table.level[row] == 0
}

/// Whether the row would be a sound document if it were a root.
fn is_document_below(case: &Case, row: usize) -> bool {
    case.table.level[row] > 0 && case.table.kind[row] == 0 && case.table.name[row] == 0
}

/// Whether the call is a step along one of these axes, and accepted.
fn accepts_step(case: &Case, answer: Answer, axes: [usize; 2]) -> bool {
    let along = |step: &Step| axes.contains(&step.axis);
    answer.refusal == 0 && matches!(&case.call, Call::Step(step) if along(step))
}

/// How many roles have pairs in several trees, in an accepted step.
fn roles_over_trees(case: &Case) -> usize {
    let started = |trees: &mut usize, &level: &usize| {
        *trees += usize::from(level == 0);
        Some(*trees)
    };
    let tree: Vec<usize> = levels(case).iter().scan(0, started).collect();
    let (role, row) = (&lists_of(case).role, &lists_of(case).row);
    let pairs: Vec<(usize, usize)> =
        role.iter().zip(row).map(|(&role, &row)| (role, tree[row])).collect();
    let of_roles = pairs.chunk_by(|one, next| one.0 == next.0);
    of_roles.filter(|of_role| of_role.first() != of_role.last()).count()
}

/// The row that a call names by its key.
fn named_row(case: &Case) -> Option<usize> {
    let key_wanted = case.call.named_key()?;
    case.table.key[..case.count].iter().position(|&key| key == key_wanted)
}

/// The root that an accepted deletion deletes.
fn deleted_root(case: &Case, answer: Answer) -> Option<usize> {
    let row = if answer.moved < 0 { named_row(case)? } else { return None };
    (case.table.level[row] == 0).then_some(row)
}

/// Whether nothing but a second tree can be wrong with the piece.
fn piece_is_sound_without_document(case: &Case) -> bool {
    let Call::Insert(insert) = &case.call else { return false };
    let (table, count) = (insert.piece.clone(), insert.piece_count);
    let mut check = Case { table, count, call: Call::Check };
    Second.answer(&mut check).refusal == 0 && insert.piece.kind[0] != 0
}
