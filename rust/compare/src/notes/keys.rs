//! What must come up about keys that share a bucket.

use super::{note, Note, CHECK, EDIT, MOST_ROWS, TABLE};
use crate::case::{Answer, Call, Case, Insert};
use lent::{bucket, buckets, MOST_BUCKETS};
use std::collections::HashSet;
use std::ops::RangeInclusive;

/// A bucket with so many other keys is well shared.
const OTHERS: usize = 8;
/// For a piece of so few rows the library looks through the table's rows, and into no bucket.
const SHORT_PIECE: usize = 4;

pub static KEYS: [Note; 19] = [
    note(TABLE, "all keys in one bucket, accepted", 1_000, |case, answer| {
        accepts_one_bucket(case, answer, 1..=MOST_ROWS)
    }),
    note(CHECK, "all keys in one of 64 buckets, accepted", 100, |case, answer| {
        accepts_one_bucket(case, answer, 1..=16)
    }),
    note(CHECK, "all keys in one of 128 buckets, accepted", 100, |case, answer| {
        accepts_one_bucket(case, answer, 17..=32)
    }),
    note(CHECK, "all keys in one of 1,024 buckets, accepted", 100, |case, answer| {
        accepts_one_bucket(case, answer, 65..=256)
    }),
    note(CHECK, "all keys in one of 4,096 buckets, accepted", 50, |case, answer| {
        accepts_one_bucket(case, answer, 257..=1_024)
    }),
    note(CHECK, "all keys in one of 16,384 buckets, accepted", 20, |case, answer| {
        accepts_one_bucket(case, answer, 1_025..=MOST_ROWS)
    }),
    note(CHECK, "4,096 keys in one bucket, accepted", 10, |case, answer| {
        accepts_one_bucket(case, answer, MOST_ROWS..=MOST_ROWS)
    }),
    note(CHECK, "4,096 keys in a few buckets, accepted", 10, |case, answer| {
        let filled = || keys(case).iter().map(|&key| bucket(key, buckets(case.count)));
        answer.refusal == 0
            && case.count == MOST_ROWS
            && (2..=OTHERS).contains(&filled().collect::<HashSet<_>>().len())
    }),
    note(CHECK, "all keys in one bucket, however many buckets there are", 100, |case, answer| {
        answer.refusal == 0 && share_a_bucket(keys(case), MOST_BUCKETS)
    }),
    note(CHECK, "the same with the largest key", 20, |case, answer| {
        let largest = || keys(case).contains(&usize::MAX);
        answer.refusal == 0 && largest() && share_a_bucket(keys(case), MOST_BUCKETS)
    }),
    note(CHECK, "a key found before others of its bucket", 200, |case, answer| {
        let found = |key: usize| comes_before_others(case, key, case.count);
        answer.refusal == 0 && case.call.named_key().is_some_and(found)
    }),
    note(CHECK, "a key that a shared bucket lacks", 200, lacks),
    note(CHECK, "the same with the key in a spare row", 200, |case, answer| {
        let spare = |key: usize| case.table.key[case.count..].contains(&key);
        lacks(case, answer) && case.call.named_key().is_some_and(spare)
    }),
    note(CHECK, "a repeated key of a shared bucket in the least unsound row", 200, repeats),
    note(CHECK, "the same with more than 512 rows", 20, |case, answer| {
        repeats(case, answer) && case.count > 512
    }),
    note(EDIT, "a piece's keys in the table's one bucket, accepted", 100, joins),
    note(EDIT, "the same with more than 512 rows", 10, |case, answer| {
        joins(case, answer) && case.count > 512
    }),
    note(EDIT, "a piece's key taken in a shared bucket", 200, takes),
    note(EDIT, "the same after others of the bucket that are not taken", 100, |case, answer| {
        let before = |insert: &Insert, at: usize| {
            beside(case, insert.piece.key[at], &insert.piece.key[..at]) > 0
        };
        takes(case, answer) && long_piece(case).is_some_and(|insert| before(insert, answer.place))
    }),
];

/// The keys of the rows in use of a table that has them.
fn keys(case: &Case) -> &[usize] {
    &case.table.key[..case.count]
}

/// How many of the others are in the bucket of the key.
fn beside(case: &Case, key: usize, others: &[usize]) -> usize {
    let buckets = buckets(case.count);
    others.iter().filter(|&&other| bucket(other, buckets) == bucket(key, buckets)).count()
}

/// Whether there are many keys, and all of them in one of so many buckets.
fn share_a_bucket(keys: &[usize], buckets: usize) -> bool {
    let first = || bucket(keys[0], buckets);
    keys.len() > OTHERS && keys.iter().all(|&key| bucket(key, buckets) == first())
}

/// Whether a table of so many rows is accepted, with all its keys in one bucket.
fn accepts_one_bucket(case: &Case, answer: Answer, rows: RangeInclusive<usize>) -> bool {
    let shared = || share_a_bucket(keys(case), buckets(case.count));
    answer.refusal == 0 && rows.contains(&case.count) && shared()
}

/// Whether a row before `end` has the key, and many rows between them have keys of its bucket: those
/// that the library looks at first where it looks for a repeated key or for one that is taken.
fn comes_before_others(case: &Case, key: usize, end: usize) -> bool {
    let row = case.table.key[..end].iter().position(|&other| other == key);
    row.is_some_and(|row| beside(case, key, &case.table.key[row + 1..end]) >= OTHERS)
}

/// Whether no row has the key that is looked for, and many have keys of its bucket.
fn lacks(case: &Case, answer: Answer) -> bool {
    let shared = |key: usize| beside(case, key, keys(case)) >= OTHERS;
    answer.refusal == 9 && case.call.named_key().is_some_and(shared)
}

/// Whether the least unsound row has the key of an earlier one, with many of its bucket between.
fn repeats(case: &Case, answer: Answer) -> bool {
    let place = answer.place;
    answer.refusal == 2 && comes_before_others(case, case.table.key[place], place)
}

/// The insertion of a piece whose keys are looked up in buckets.
fn long_piece(case: &Case) -> Option<&Insert> {
    match &case.call {
        Call::Insert(insert) if insert.piece_count > SHORT_PIECE => Some(insert),
        _ => None,
    }
}

/// Whether a piece is inserted, and its keys are in the one bucket of all the table's keys.
fn joins(case: &Case, answer: Answer) -> bool {
    let of_bucket = |insert: &Insert| {
        let piece = &insert.piece.key[..insert.piece_count];
        beside(case, case.table.key[0], piece) == piece.len()
    };
    accepts_one_bucket(case, answer, 1..=MOST_ROWS) && long_piece(case).is_some_and(of_bucket)
}

/// Whether a piece is refused for a key that the table has before many others of its bucket.
fn takes(case: &Case, answer: Answer) -> bool {
    let taken =
        |insert: &Insert| comes_before_others(case, insert.piece.key[answer.place], case.count);
    answer.refusal == 13 && long_piece(case).is_some_and(taken)
}
