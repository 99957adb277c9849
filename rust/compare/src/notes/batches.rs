//! What must come up about the items of a batch, done and refused ones.

use super::items::items_of;
use super::{note, Note, BATCH, MOST_ROWS};
use crate::case::{Answer, Case};
use lent::{bucket, DELETE, MOST_BUCKETS, MOST_ITEMS, RENAME};

/// So few items are looked at in pairs.
const FEW: usize = 20;

pub static BATCHES: [Note; 36] = [
    note(BATCH, "the first of several items refused", 1_000, |case, answer| {
        is_stopped(answer) && answer.first == 0 && items_of(case).code.len() > 1
    }),
    note(BATCH, "the last of several items refused", 1_000, |case, answer| {
        is_stopped(answer) && answer.first > 0 && answer.first + 1 == items_of(case).code.len()
    }),
    note(BATCH, "items done, then an unknown key", 1_000, |_, answer| {
        answer.refusal == 9 && answer.first > 0
    }),
    note(BATCH, "items done, then the only root", 1_000, |_, answer| {
        answer.refusal == 15 && answer.first > 0
    }),
    note(BATCH, "items done, then a bad rename", 1_000, |_, answer| {
        answer.refusal == 16 && answer.first > 0
    }),
    note(BATCH, "a bad rename of a row that has moved", 1_000, |case, answer| {
        answer.refusal == 16 && first_row(case, answer.first) != Some(answer.place)
    }),
    note(BATCH, "a deleted key renamed", 1_000, |case, answer| {
        repeats_deletion(case, answer) && items_of(case).code[answer.first] == RENAME
    }),
    note(BATCH, "a deleted key deleted once more", 1_000, |case, answer| {
        repeats_deletion(case, answer) && items_of(case).code[answer.first] == DELETE
    }),
    note(BATCH, "a row renamed that went with one above it", 1_000, |case, answer| {
        went_with_another(case, answer) && items_of(case).code[answer.first] == RENAME
    }),
    note(BATCH, "a row deleted that went with one above it", 1_000, |case, answer| {
        went_with_another(case, answer) && items_of(case).code[answer.first] == DELETE
    }),
    note(BATCH, "a row deleted, then one above it", 1_000, |case, answer| {
        has_pair(case, answer, [DELETE, DELETE], |below, above| is_above(case, above, below))
    }),
    note(BATCH, "a row renamed, then deleted", 1_000, |case, answer| {
        has_pair(case, answer, [RENAME, DELETE], |one, other| one == other)
    }),
    note(BATCH, "a row renamed twice", 1_000, |case, answer| {
        has_pair(case, answer, [RENAME, RENAME], |one, other| one == other)
    }),
    note(BATCH, "a row renamed after one before it was deleted", 1_000, |case, answer| {
        has_pair(case, answer, [DELETE, RENAME], |deleted, renamed| deleted < renamed)
    }),
    note(BATCH, "a row renamed after one behind it was deleted", 1_000, |case, answer| {
        has_pair(case, answer, [DELETE, RENAME], |deleted, renamed| deleted > renamed)
    }),
    note(BATCH, "a row deleted after one before it", 1_000, |case, answer| {
        has_pair(case, answer, [DELETE, DELETE], |one, other| one < other)
    }),
    note(BATCH, "a row deleted after one behind it", 1_000, |case, answer| {
        has_pair(case, answer, [DELETE, DELETE], |one, other| one > other)
    }),
    note(BATCH, "a rename to the name that the row has", 1_000, |case, answer| {
        let own = |place: usize| first_row(case, place).map(|row| case.table.name[row]);
        done(case, answer, RENAME).any(|place| own(place) == Some(items_of(case).name[place]))
    }),
    note(BATCH, "key 0", 1_000, |case, answer| {
        answer.refusal == 9 && items_of(case).key[answer.first] == 0
    }),
    note(BATCH, "the key of a spare row", 1_000, |case, answer| {
        let spare = |key: usize| case.table.key[case.count..].contains(&key);
        answer.refusal == 9
            && first_row(case, answer.first).is_none()
            && spare(items_of(case).key[answer.first])
    }),
    note(BATCH, "a deletion with the name 0", 1_000, |case, answer| {
        done(case, answer, DELETE).any(|place| items_of(case).name[place] == 0)
    }),
    note(BATCH, "a deletion with another name", 1_000, |case, answer| {
        done(case, answer, DELETE).any(|place| items_of(case).name[place] != 0)
    }),
    note(BATCH, "a row that has a name renamed to 0", 1_000, |case, answer| {
        answer.refusal == 16 && items_of(case).name[answer.first] == 0 && has_name(case, answer)
    }),
    note(BATCH, "a row that has no name renamed", 1_000, |case, answer| {
        answer.refusal == 16 && items_of(case).name[answer.first] != 0 && !has_name(case, answer)
    }),
    note(BATCH, "a table of one row, renamed", 1_000, |case, answer| {
        answer.refusal == 0 && answer.first > 0 && case.count == 1
    }),
    note(BATCH, "a table of one row that is to go", 1_000, |case, answer| {
        answer.refusal == 15 && case.count == 1
    }),
    note(BATCH, "roots deleted, then the last one refused", 1_000, |case, answer| {
        answer.refusal == 15 && roots_gone(case, answer) > 0
    }),
    note(BATCH, "all roots but one deleted, nothing refused", 1_000, |case, answer| {
        let roots = || case.table.level[..case.count].iter().filter(|&&level| level == 0).count();
        answer.refusal == 0
            && roots_gone(case, answer) > 0
            && roots_gone(case, answer) + 1 == roots()
    }),
    note(BATCH, "a row at level 63 deleted", 500, |case, answer| {
        deleted_levels(case, answer).any(|level| level == 63)
    }),
    note(BATCH, "rows freed before spare ones", 1_000, |case, answer| {
        answer.first > 0 && answer.second < case.count && case.table.shortest() > case.count
    }),
    note(BATCH, "4,096 rows, 256 items done", 20, |case, answer| {
        case.count == MOST_ROWS && answer.first == MOST_ITEMS
    }),
    note(BATCH, "more than 100 of 4,096 roots deleted", 10, |case, answer| {
        case.count == MOST_ROWS
            && roots_gone(case, answer) > 100
            && case.table.level[..case.count].iter().all(|&level| level == 0)
    }),
    note(
        BATCH,
        "all keys in one bucket, a row renamed before one is deleted",
        200,
        |case, answer| answer.first > 0 && items_of(case).code[0] == RENAME && is_one_bucket(case),
    ),
    note(BATCH, "all keys in one bucket, rows deleted, then renamed", 200, |case, answer| {
        has_pair(case, answer, [DELETE, RENAME], |_, _| true) && is_one_bucket(case)
    }),
    note(BATCH, "256 rows, items done", 20, |case, answer| case.count == 256 && answer.first > 0),
    note(BATCH, "257 rows, items done", 20, |case, answer| case.count == 257 && answer.first > 0),
];

/// Whether an item stopped the batch; then its place is the number of those done.
fn is_stopped(answer: Answer) -> bool {
    matches!(answer.refusal, 9 | 15 | 16)
}

/// Whether nine keys or more share one bucket, however many buckets the library has for them.
fn is_one_bucket(case: &Case) -> bool {
    let keys = &case.table.key[..case.count];
    keys.len() > 8
        && keys.iter().all(|&key| bucket(key, MOST_BUCKETS) == bucket(keys[0], MOST_BUCKETS))
}

/// The row that an item names, in the table as it was at first.
fn first_row(case: &Case, place: usize) -> Option<usize> {
    let key_wanted = items_of(case).key[place];
    case.table.key[..case.count].iter().position(|&key| key == key_wanted)
}

/// The places of the items with this code that were done.
fn done(case: &Case, answer: Answer, code: usize) -> impl Iterator<Item = usize> + '_ {
    (0..answer.first).filter(move |&place| items_of(case).code[place] == code)
}

/// Whether of two items that were done, with these codes in this order, something holds of their
/// rows.
fn has_pair(
    case: &Case,
    answer: Answer,
    [one, other]: [usize; 2],
    holds: impl Fn(usize, usize) -> bool,
) -> bool {
    if answer.first > FEW {
        return false;
    }
    let row = |place: usize| first_row(case, place).expect("the item was done");
    done(case, answer, one).any(|first| {
        let mut later = done(case, answer, other).filter(|&place| place > first);
        later.any(|second| holds(row(first), row(second)))
    })
}

/// By the sizes that the table had at first.
fn is_above(case: &Case, above: usize, below: usize) -> bool {
    above < below && below <= above + case.table.size[above]
}

/// Whether the refused item's key was deleted by an item before it.
fn repeats_deletion(case: &Case, answer: Answer) -> bool {
    let items = items_of(case);
    let again = |key: usize| done(case, answer, DELETE).any(|place| items.key[place] == key);
    answer.refusal == 9 && again(items.key[answer.first])
}

/// Whether the refused item's key was in the table, and no item before it named it to be deleted.
fn went_with_another(case: &Case, answer: Answer) -> bool {
    answer.refusal == 9
        && first_row(case, answer.first).is_some()
        && !repeats_deletion(case, answer)
}

/// Whether the refused item's row is an element or a processing instruction.
fn has_name(case: &Case, answer: Answer) -> bool {
    first_row(case, answer.first).is_some_and(|row| matches!(case.table.kind[row], 1 | 4))
}

/// The levels of the rows that were deleted by their own keys.
fn deleted_levels(case: &Case, answer: Answer) -> impl Iterator<Item = usize> + '_ {
    let deleted = done(case, answer, DELETE).filter_map(|place| first_row(case, place));
    deleted.map(|row| case.table.level[row])
}

fn roots_gone(case: &Case, answer: Answer) -> usize {
    deleted_levels(case, answer).filter(|&level| level == 0).count()
}
