//! Two farms in one table, with answers worked out by hand: the small farm, and after it one that
//! starts with a document.
//!
//! | row | key | size | level | kind | name |
//! |---|---|---|---|---|---|
//! | 10 | 60 | 4 | 0 | 0 | 0 |
//! | 11 | 61 | 2 | 1 | 1 | 2 |
//! | 12 | 62 | 1 | 2 | 1 | 3 |
//! | 13 | 63 | 0 | 3 | 1 | 4 |
//! | 14 | 70 | 0 | 1 | 3 | 0 |

use super::edits::{accepted, insert, setpoint, SPARE};
use super::{farm, farm_lists};
use crate::case::{Answer, Call, Carry, Case, Lists, Step};
use crate::judge::{Difference, Judge};
use lent::Columns;

type List = &'static [(usize, usize)];

/// Each of the three roles has pairs in both farms.
const PAIRS: List = &[(5, 1), (5, 2), (5, 12), (7, 6), (7, 10), (8, 9), (8, 14)];
/// Pairs on both roots.
const ROOTS: List = &[(5, 0), (5, 10), (7, 10)];

/// A step for any node on the two farms, with its results and kept count.
struct Stated {
    name: &'static str,
    pairs: List,
    axis: usize,
    results: List,
    kept: usize,
}

const STATED: [Stated; 13] = [
    Stated {
        name: "following ends with the farm",
        pairs: PAIRS,
        axis: 8,
        results: &[(5, 4), (5, 5), (5, 6), (5, 7), (5, 8), (5, 9), (5, 14), (7, 9)],
        kept: 6,
    },
    Stated {
        name: "preceding starts with the farm",
        pairs: &[(7, 6), (7, 10), (8, 2), (8, 13), (8, 14)],
        axis: 9,
        results: &[(7, 1), (7, 2), (7, 3), (7, 4), (7, 5), (8, 11), (8, 12), (8, 13)],
        kept: 4,
    },
    Stated {
        name: "siblings that follow",
        pairs: PAIRS,
        axis: 10,
        results: &[(5, 4), (5, 6), (5, 9), (7, 9)],
        kept: 7,
    },
    Stated {
        name: "siblings that precede",
        pairs: PAIRS,
        axis: 11,
        results: &[(7, 1), (8, 1), (8, 6), (8, 11)],
        kept: 7,
    },
    Stated {
        name: "ancestors in both farms",
        pairs: PAIRS,
        axis: 6,
        results: &[(5, 0), (5, 1), (5, 10), (5, 11), (7, 0), (8, 0), (8, 10)],
        kept: 6,
    },
    Stated {
        name: "children in both farms",
        pairs: ROOTS,
        axis: 2,
        results: &[(5, 1), (5, 6), (5, 9), (5, 11), (5, 14), (7, 11), (7, 14)],
        kept: 3,
    },
    Stated {
        name: "roots themselves",
        pairs: ROOTS,
        axis: 7,
        results: &[(5, 0), (5, 10), (7, 10)],
        kept: 3,
    },
    Stated { name: "the parent of a root", pairs: ROOTS, axis: 5, results: &[], kept: 3 },
    Stated { name: "ancestors of a root", pairs: ROOTS, axis: 6, results: &[], kept: 3 },
    Stated { name: "what follows a root", pairs: ROOTS, axis: 8, results: &[], kept: 3 },
    Stated { name: "what precedes a root", pairs: ROOTS, axis: 9, results: &[], kept: 3 },
    Stated { name: "siblings after a root", pairs: ROOTS, axis: 10, results: &[], kept: 3 },
    Stated { name: "siblings before a root", pairs: ROOTS, axis: 11, results: &[], kept: 3 },
];

/// The second farm as a table of its own.
pub fn second_farm() -> Columns {
    Columns {
        key: vec![60, 61, 62, 63, 70],
        size: vec![4, 2, 1, 0, 0],
        level: vec![0, 1, 2, 3, 1],
        kind: vec![0, 1, 1, 1, 3],
        name: vec![0, 2, 3, 4, 0],
    }
}

/// The columns one after the other, and then so many rows that hold the one number.
pub fn joined(parts: &[Columns], (number, rows): (usize, usize)) -> Columns {
    let mut all = Columns::default();
    parts.iter().for_each(|part| all.append(part));
    all.each_mut().into_iter().for_each(|column| column.resize(column.len() + rows, number));
    all
}

/// Both farms, and one spare row.
fn farms() -> Columns {
    joined(&[farm(), second_farm()], (SPARE, 1))
}

pub fn on_farms(call: Call) -> Case {
    Case { table: farms(), count: 15, call }
}

/// Poses the cases.
pub fn run(judge: &mut Judge<'_>) -> Result<(), Difference> {
    checks(judge)?;
    for stated in STATED {
        step(judge, stated)?;
    }
    deletions(judge)?;
    insertions(judge)?;
    either_order(judge)?;
    carries(judge)
}

/// Poses a case that leaves everything as it is.
fn unchanged(
    judge: &mut Judge<'_>,
    name: &str,
    case: Case,
    answer: Answer,
) -> Result<(), Difference> {
    judge.pose_stated(name, case.clone(), answer, case)
}

/// A root may be of any kind, and only a root may be a document. Both roots are found without a
/// parent, and no parent stands in another farm.
fn checks(judge: &mut Judge<'_>) -> Result<(), Difference> {
    unchanged(judge, "two farms are sound", on_farms(Call::Check), Answer::default())?;
    for (key_wanted, row, level, parent) in
        [(10, 0, 0, -1), (60, 10, 0, -1), (40, 9, 1, 0), (61, 11, 1, 10), (70, 14, 1, 10)]
    {
        let stated = Answer::found(row, level, parent);
        unchanged(judge, "a key of two farms", on_farms(Call::Find { key_wanted }), stated)?;
    }
    let mut below = on_farms(Call::Check);
    (below.table.kind[11], below.table.name[11]) = (0, 0);
    unchanged(judge, "a document below a root", below, Answer::refused(2, 11))?;
    let mut third = on_farms(Call::Check);
    third.table.level[9] = 0;
    unchanged(judge, "a size that leaves the tree", third.clone(), Answer::refused(2, 0))?;
    third.table.size[0] = 8;
    unchanged(judge, "a comment as a tree", third, Answer::default())
}

/// With result columns that just fit, and with longer ones.
fn step(judge: &mut Judge<'_>, stated: Stated) -> Result<(), Difference> {
    let Stated { name, pairs, axis, results, kept } = stated;
    for room in [results.len(), 20] {
        let lists = lists(pairs, room);
        let mut after = lists.clone();
        after.write(results);
        let case = |lists: Lists| on_farms(Call::Step(Step { lists, axis, ..Step::default() }));
        let answer = Answer { first: results.len(), second: kept, ..Answer::default() };
        judge.pose_stated(name, case(lists), answer, case(after))?;
    }
    Ok(())
}

fn lists(pairs: List, room: usize) -> Lists {
    let (role, row) = pairs.iter().copied().unzip();
    Lists { role, row, ..farm_lists(room) }
}

/// A root can be deleted until it is the only one.
fn deletions(judge: &mut Judge<'_>) -> Result<(), Difference> {
    let without_first = joined(&[second_farm(), zeros(10)], (SPARE, 1));
    let without_second = joined(&[farm(), zeros(5)], (SPARE, 1));
    let cases = [
        ("delete the first root", 10, accepted(5, 10, -10), without_first.clone()),
        ("delete the last root", 60, accepted(10, 15, -5), without_second.clone()),
    ];
    for (name, key_wanted, answer, table) in cases {
        let start = on_farms(Call::Delete { key_wanted });
        let after = Case { table, ..start.clone() };
        judge.pose_stated(name, start, answer, after)?;
    }
    for (key_wanted, table, count) in [(60, without_first, 5), (10, without_second, 10)] {
        let only = Case { table, count, call: Call::Delete { key_wanted } };
        unchanged(judge, "delete the only root", only, Answer::refused(15, 0))?;
    }
    Ok(())
}

/// So many rows of zeros, as a deletion leaves them.
fn zeros(rows: usize) -> Columns {
    joined(&[], (0, rows))
}

/// A piece comes in at the end of the first farm, before the root of the second; a piece of
/// several trees does not come in.
fn insertions(judge: &mut Judge<'_>) -> Result<(), Difference> {
    let start = on_farms(insert(10, setpoint()));
    let mut grown = farm();
    grown.size[0] = 10;
    let at_end = Columns { level: vec![1], ..setpoint() };
    let table = joined(&[grown, at_end, second_farm()], (SPARE, 0));
    let after = Case { table, ..start.clone() };
    judge.pose_stated("insert before a root", start, accepted(16, 10, 1), after)?;

    let two = |kind: usize, name: usize| Columns {
        key: vec![50, 51],
        size: vec![0, 0],
        level: vec![0, 0],
        kind: vec![1, kind],
        name: vec![4, name],
    };
    for piece in [two(1, 4), two(0, 0)] {
        let case = on_farms(insert(62, piece));
        unchanged(judge, "a piece of two trees", case, Answer::refused(10, 0))?;
    }
    Ok(())
}

/// The first root is deleted, and a setpoint comes in under key 62, in either order.
fn either_order(judge: &mut Judge<'_>) -> Result<(), Difference> {
    let delete = Call::Delete { key_wanted: 10 };
    let grown = Columns {
        key: vec![60, 61, 62, 63, 50, 70],
        size: vec![5, 3, 2, 0, 0, 0],
        level: vec![0, 1, 2, 3, 3, 1],
        kind: vec![0, 1, 1, 1, 1, 3],
        name: vec![0, 2, 3, 4, 4, 0],
    };
    let deleted = joined(&[second_farm(), zeros(10)], (SPARE, 1));
    let start = Case { table: deleted, count: 5, call: insert(62, setpoint()) };
    let table = joined(&[grown.clone(), zeros(9)], (SPARE, 1));
    let after = Case { table, ..start.clone() };
    judge.pose_stated("a root deleted first", start, accepted(6, 4, 1), after)?;

    let start = on_farms(insert(62, setpoint()));
    let inserted = joined(&[farm(), grown.clone()], (SPARE, 0));
    let after = Case { table: inserted.clone(), ..start.clone() };
    judge.pose_stated("a setpoint first", start, accepted(16, 14, 1), after)?;
    let start = Case { table: inserted, count: 16, call: delete };
    let after = Case { table: joined(&[grown, zeros(10)], (SPARE, 0)), ..start.clone() };
    judge.pose_stated("a root deleted afterwards", start, accepted(6, 10, -10), after)
}

/// The pairs over the deletion of each farm, and by one row too many.
fn carries(judge: &mut Judge<'_>) -> Result<(), Difference> {
    let carry =
        |lists: Lists, first: usize, moved: i64| Case::of_carry(15, Carry { lists, first, moved });
    let cases: [(usize, i64, List); 2] =
        [(10, -10, &[(5, 2), (7, 0), (8, 4)]), (15, -5, &[(5, 1), (5, 2), (7, 6), (8, 9)])];
    for (first, moved, new_list) in cases {
        let start = lists(PAIRS, 7);
        let mut after = start.clone();
        after.write(new_list);
        let answer = Answer { first: new_list.len(), ..Answer::default() };
        let (start, after) = (carry(start, first, moved), carry(after, first, moved));
        judge.pose_stated("carry over a root deleted", start, answer, after)?;
    }
    let below = carry(lists(PAIRS, 7), 10, -11);
    unchanged(judge, "the first moved row comes to row -1", below, Answer::refused(17, 0))
}
