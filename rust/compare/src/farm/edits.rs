//! The stated edits: M9, M10 and M11, and each refusal of an edit.

use super::farm;
use crate::case::{Answer, Call, Case, Insert};
use crate::judge::{Difference, Judge};
use crate::tables::chain;
use lent::Columns;

/// What the one spare row holds.
pub const SPARE: usize = 77;

/// The farm with columns of 11 rows.
pub fn farm_with_room() -> Columns {
    let mut table = farm();
    table.each_mut().into_iter().for_each(|column| column.push(SPARE));
    table
}

/// Key 50, size 0, level 0, kind 1, name 4.
pub fn setpoint() -> Columns {
    Columns { key: vec![50], size: vec![0], level: vec![0], kind: vec![1], name: vec![4] }
}

fn m9() -> Call {
    Call::Delete { key_wanted: 21 }
}

fn m10() -> Call {
    insert(31, setpoint())
}

pub fn insert(parent_key: usize, piece: Columns) -> Call {
    let piece_count = piece.key.len();
    Call::Insert(Insert { parent_key, piece, piece_count })
}

pub fn accepted(count: usize, first_moved: usize, moved: i64) -> Answer {
    Answer { first: count, second: first_moved, moved, ..Answer::default() }
}

/// Poses the stated edits.
pub fn run(judge: &mut Judge<'_>) -> Result<(), Difference> {
    let start = Case { table: farm_with_room(), count: 10, call: m9() };
    let deleted = Columns {
        key: vec![10, 20, 23, 24, 30, 31, 32, 40, 0, 0, SPARE],
        size: vec![7, 2, 1, 0, 2, 1, 0, 0, 0, 0, SPARE],
        level: vec![0, 1, 2, 3, 1, 2, 3, 1, 0, 0, SPARE],
        kind: vec![1, 1, 1, 1, 1, 1, 1, 3, 0, 0, SPARE],
        name: vec![1, 2, 3, 4, 2, 3, 4, 0, 0, 0, SPARE],
    };
    let after = Case { table: deleted.clone(), ..start.clone() };
    judge.pose_stated("M9", start.clone(), accepted(8, 4, -2), after)?;

    let inserted = Columns {
        key: vec![10, 20, 21, 22, 23, 24, 30, 31, 32, 50, 40],
        size: vec![10, 4, 1, 0, 1, 0, 3, 2, 0, 0, 0],
        level: vec![0, 1, 2, 3, 2, 3, 1, 2, 3, 3, 1],
        kind: vec![1, 1, 1, 1, 1, 1, 1, 1, 1, 1, 3],
        name: vec![1, 2, 3, 4, 3, 4, 2, 3, 4, 4, 0],
    };
    let after = Case { table: inserted.clone(), count: 10, call: m10() };
    judge.pose_stated("M10", Case { call: m10(), ..start }, accepted(11, 9, 1), after)?;
    both_orders(judge, deleted, inserted)?;
    at_the_end(judge)?;
    refusals(judge)
}

/// M11: M9 and M10 in either order.
fn both_orders(
    judge: &mut Judge<'_>,
    deleted: Columns,
    inserted: Columns,
) -> Result<(), Difference> {
    let both = |spare: usize| Columns {
        key: vec![10, 20, 23, 24, 30, 31, 32, 50, 40, 0, spare],
        size: vec![8, 2, 1, 0, 3, 2, 0, 0, 0, 0, spare],
        level: vec![0, 1, 2, 3, 1, 2, 3, 3, 1, 0, spare],
        kind: vec![1, 1, 1, 1, 1, 1, 1, 1, 3, 0, spare],
        name: vec![1, 2, 3, 4, 2, 3, 4, 4, 0, 0, spare],
    };
    let start = Case { table: deleted, count: 8, call: m10() };
    let after = Case { table: both(SPARE), ..start.clone() };
    judge.pose_stated("M11, M9 first", start, accepted(9, 7, 1), after)?;
    let start = Case { table: inserted, count: 11, call: m9() };
    let after = Case { table: both(0), ..start.clone() };
    judge.pose_stated("M11, M10 first", start, accepted(9, 4, -2), after)
}

/// At the very end nothing moves, but the answer still says by how much.
fn at_the_end(judge: &mut Judge<'_>) -> Result<(), Difference> {
    let start = Case { table: farm_with_room(), count: 10, call: Call::Delete { key_wanted: 40 } };
    let mut after = start.clone();
    after.table.each_mut().into_iter().for_each(|column| column[9] = 0);
    after.table.size[0] = 8;
    judge.pose_stated("delete the last row", start, accepted(9, 10, -1), after)?;

    let start = Case { table: farm_with_room(), count: 10, call: insert(10, setpoint()) };
    let mut after = start.clone();
    let last = [50, 0, 1, 1, 4];
    after.table.each_mut().into_iter().zip(last).for_each(|(column, value)| column[10] = value);
    after.table.size[0] = 10;
    judge.pose_stated("insert at the end", start, accepted(11, 10, 1), after)?;

    let start = Case {
        table: farm_with_room(),
        count: 10,
        call: Call::Rename { key_wanted: 31, new_name: 9 },
    };
    let mut after = start.clone();
    after.table.name[7] = 9;
    judge.pose_stated("rename", start, accepted(10, 10, 0), after)
}

/// Each refusal of an edit, with its place; nothing changes.
fn refusals(judge: &mut Judge<'_>) -> Result<(), Difference> {
    let rename = |key_wanted: usize, new_name: usize| Call::Rename { key_wanted, new_name };
    let long = Columns {
        key: vec![50, 51],
        size: vec![1, 0],
        level: vec![0, 1],
        kind: vec![1, 1],
        name: vec![1, 1],
    };
    let cases = [
        ("no such key", insert(99, setpoint()), Answer::refused(9, 0)),
        ("key 0", Call::Delete { key_wanted: 0 }, Answer::refused(9, 0)),
        ("an empty piece", insert(31, Columns::default()), Answer::refused(10, 0)),
        (
            "a document as piece",
            insert(31, Columns { kind: vec![0], name: vec![0], ..setpoint() }),
            Answer::refused(10, 0),
        ),
        (
            "an unsound piece",
            insert(31, Columns { size: vec![1], ..setpoint() }),
            Answer::refused(10, 0),
        ),
        ("a comment as parent", insert(40, setpoint()), Answer::refused(11, 9)),
        ("too deep", insert(22, chain(61)), Answer::refused(12, 0)),
        (
            "a key that is taken",
            insert(31, Columns { key: vec![50, 24], ..long.clone() }),
            Answer::refused(13, 1),
        ),
        ("no room", insert(31, long), Answer::refused(14, 0)),
        ("delete the only root", Call::Delete { key_wanted: 10 }, Answer::refused(15, 0)),
        ("rename a comment", rename(40, 5), Answer::refused(16, 9)),
        ("rename to 0", rename(31, 0), Answer::refused(16, 7)),
    ];
    for (name, call, answer) in cases {
        let case = Case { table: farm_with_room(), count: 10, call };
        judge.pose_stated(name, case.clone(), answer, case)?;
    }
    Ok(())
}
