//! What must come up about lists of items: at every boundary, and with several refusals at once.

use super::{note, Note, BATCH};
use crate::case::{Answer, Call, Case};
use crate::engine::{Engine, Second};
use crate::one_by_one::is_good;
use lent::{Items, DELETE, MOST_ITEMS, RENAME};

pub static ITEMS: [Note; 19] = [
    note(BATCH, "an empty list, accepted", 1_000, |case, answer| {
        answer.refusal == 0 && items_of(case).code.is_empty()
    }),
    note(BATCH, "255 items, all done", 100, |_, answer| answer.refusal == 0 && answer.first == 255),
    note(BATCH, "256 items, all done", 500, |_, answer| {
        answer.refusal == 0 && answer.first == MOST_ITEMS
    }),
    note(BATCH, "256 items, the last refused", 20, |_, answer| {
        answer.first == MOST_ITEMS - 1 && matches!(answer.refusal, 9 | 15 | 16)
    }),
    note(BATCH, "257 items with good codes", 500, |case, answer| {
        let lengths = items_of(case).each().map(Vec::len);
        answer.refusal == 18 && lengths == [MOST_ITEMS + 1; 3] && first_bad_code(case).is_none()
    }),
    note(BATCH, "one column of items above 256", 20, |case, answer| {
        let above = |column: &&Vec<usize>| column.len() > MOST_ITEMS;
        answer.refusal == 18
            && items_of(case).each().iter().filter(|column| above(column)).count() == 1
    }),
    note(BATCH, "fewer codes than keys and names", 500, |case, answer| {
        answer.refusal == 18 && is_shorter(case, [0, 1, 2])
    }),
    note(BATCH, "fewer keys than codes and names", 500, |case, answer| {
        answer.refusal == 18 && is_shorter(case, [1, 0, 2])
    }),
    note(BATCH, "fewer names than codes and keys", 500, |case, answer| {
        answer.refusal == 18 && is_shorter(case, [2, 0, 1])
    }),
    note(BATCH, "more codes than keys and names", 500, |case, answer| {
        answer.refusal == 18 && is_longer(case, [0, 1, 2])
    }),
    note(BATCH, "more keys than codes and names", 500, |case, answer| {
        answer.refusal == 18 && is_longer(case, [1, 0, 2])
    }),
    note(BATCH, "more names than codes and keys", 500, |case, answer| {
        answer.refusal == 18 && is_longer(case, [2, 0, 1])
    }),
    note(BATCH, "code 0", 1_000, |case, answer| first_bad(case, answer) == Some(0)),
    note(BATCH, "code 3", 1_000, |case, answer| first_bad(case, answer) == Some(3)),
    note(BATCH, "a code that is good but for its upper half", 1_000, |case, answer| {
        first_bad(case, answer)
            .is_some_and(|code| [DELETE, RENAME].contains(&(code as u32 as usize)))
    }),
    note(BATCH, "a bad code behind an item that would be refused", 1_000, |case, answer| {
        is_behind(case, answer, |before| before.refusal != 0)
    }),
    note(BATCH, "a bad code behind items that would all be done", 1_000, |case, answer| {
        is_behind(case, answer, |before| before.refusal == 0 && before.first > 0)
    }),
    note(BATCH, "an unsound table and a bad list", 1_000, |case, answer| {
        answer.refusal == 2 && !is_good(items_of(case))
    }),
    note(BATCH, "a bad count and a bad list", 1_000, |case, answer| {
        answer.refusal == 1 && !is_good(items_of(case))
    }),
];

pub fn items_of(case: &Case) -> &Items {
    match &case.call {
        Call::Batch(items) => items,
        _ => unreachable!("this part poses only batches"),
    }
}

/// Whether the first of these columns of items is shorter than the other two, which are equally
/// long.
fn is_shorter(case: &Case, columns: [usize; 3]) -> bool {
    let [own, one, other] = columns.map(|column| items_of(case).each()[column].len());
    one == other && own < one
}

/// The same where it is longer.
fn is_longer(case: &Case, columns: [usize; 3]) -> bool {
    let [own, one, other] = columns.map(|column| items_of(case).each()[column].len());
    one == other && own > one
}

fn first_bad_code(case: &Case) -> Option<usize> {
    items_of(case).code.iter().position(|code| ![DELETE, RENAME].contains(code))
}

/// The first bad code of a list in which nothing else is bad.
fn first_bad(case: &Case, answer: Answer) -> Option<usize> {
    let items = items_of(case);
    let lengths = items.each().map(Vec::len);
    let else_good = lengths[0] <= MOST_ITEMS && lengths == [lengths[0]; 3];
    let code = first_bad_code(case).map(|place| items.code[place]);
    code.filter(|_| answer.refusal == 18 && else_good)
}

/// Whether something holds of what the items before the bad code of such a list would have come to
/// by themselves. It is asked here, since memcheck can't follow an answer that may be missing.
fn is_behind(case: &Case, answer: Answer, holds: impl Fn(Answer) -> bool) -> bool {
    let Some(end) = first_bad_code(case).filter(|_| first_bad(case, answer).is_some()) else {
        return false;
    };
    let mut before = case.clone();
    if let Call::Batch(items) = &mut before.call {
        items.each_mut().into_iter().for_each(|column| column.truncate(end));
    }
    holds(Second.answer(&mut before))
}
