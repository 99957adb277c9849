//! Two farms in one table in the second program, with answers worked out by hand. The first is the
//! small farm; the second starts with a document:
//!
//! | row | key | size | level | kind | name |
//! |---|---|---|---|---|---|
//! | 10 | 60 | 4 | 0 | 0 | 0 |
//! | 11 | 61 | 2 | 1 | 1 | 2 |
//! | 12 | 62 | 1 | 2 | 1 | 3 |
//! | 13 | 63 | 0 | 3 | 1 | 4 |
//! | 14 | 70 | 0 | 1 | 3 | 0 |

use second::{carry, check, delete, find, insert, step};
use second::{Answer, Found, Pairs, Question, Results, Table, TableMut};

const KEY: [usize; 15] = [10, 20, 21, 22, 23, 24, 30, 31, 32, 40, 60, 61, 62, 63, 70];
const SIZE: [usize; 15] = [9, 4, 1, 0, 1, 0, 2, 1, 0, 0, 4, 2, 1, 0, 0];
const LEVEL: [usize; 15] = [0, 1, 2, 3, 2, 3, 1, 2, 3, 1, 0, 1, 2, 3, 1];
const KIND: [usize; 15] = [1, 1, 1, 1, 1, 1, 1, 1, 1, 3, 0, 1, 1, 1, 3];
const NAME: [usize; 15] = [1, 2, 3, 4, 3, 4, 2, 3, 4, 0, 0, 2, 3, 4, 0];

/// Roles 5, 7 and 8 have pairs in both farms.
const GRANTS: [(usize, usize); 7] = [(5, 1), (5, 2), (5, 12), (7, 6), (7, 10), (8, 9), (8, 14)];

fn farms() -> Table<'static> {
    Table { key: &KEY, size: &SIZE, level: &LEVEL, kind: &KIND, name: &NAME, count: 15 }
}

fn refused(refusal: usize, place: usize) -> Answer {
    Answer { refusal, place, ..Answer::default() }
}

/// The results of a step that is accepted, and its kept count.
fn listed(list: &[(usize, usize)], axis: usize, test: usize) -> (Vec<(usize, usize)>, usize) {
    let (role, row): (Vec<usize>, Vec<usize>) = list.iter().copied().unzip();
    let (mut out_role, mut out_row) = ([0; 60], [0; 60]);
    let question = Question { axis, test, test_name: 0 };
    let results = &mut Results { role: &mut out_role, row: &mut out_row };
    let answer = step(&farms(), &Pairs { role: &role, row: &row }, question, results);
    assert_eq!(answer.refusal, 0);
    (out_role.into_iter().zip(out_row).take(answer.first).collect(), answer.second)
}

#[test]
fn every_root_may_be_a_document_and_no_other_row() {
    assert_eq!(check(&farms()), Answer::default());
    let (mut kind, mut name) = (KIND, NAME);
    (kind[11], name[11]) = (0, 0);
    assert_eq!(check(&Table { kind: &kind, name: &name, ..farms() }), refused(2, 11));
    // Row 9 becomes a tree of its own, and row 0 still counts it.
    let mut level = LEVEL;
    level[9] = 0;
    assert_eq!(check(&Table { level: &level, ..farms() }), refused(2, 0));
    let mut size = SIZE;
    size[0] = 8;
    assert_eq!(check(&Table { level: &level, size: &size, ..farms() }), Answer::default());
}

#[test]
fn the_roots_of_both_farms_are_found_and_no_parent_leaves_its_farm() {
    for (key, row, level, parent) in [
        (10, 0, 0, -1),
        (60, 10, 0, -1),
        (40, 9, 1, 0),
        (61, 11, 1, 10),
        (63, 13, 3, 12),
        (70, 14, 1, 10),
    ] {
        assert_eq!(find(&farms(), key), Found { row, level, parent, ..Found::default() });
    }
}

#[test]
fn following_and_preceding_stay_in_the_tree() {
    let following = vec![(5, 4), (5, 5), (5, 6), (5, 7), (5, 8), (5, 9), (5, 14), (7, 9)];
    assert_eq!(listed(&GRANTS, 8, 0), (following, 6));
    let of_seven = (1..=5).map(|row| (7, row));
    let of_eight = (1..=8).chain(11..=13).map(|row| (8, row));
    assert_eq!(listed(&GRANTS, 9, 1), (of_seven.chain(of_eight).collect(), 6));
}

#[test]
fn roots_are_nobodys_siblings_and_have_no_parent() {
    assert_eq!(listed(&GRANTS, 10, 0), (vec![(5, 4), (5, 6), (5, 9), (7, 9)], 7));
    assert_eq!(listed(&GRANTS, 11, 0), (vec![(7, 1), (8, 1), (8, 6), (8, 11)], 7));
    let roots = [(5, 0), (5, 10), (7, 10)];
    for axis in [5, 6, 8, 9, 10, 11] {
        assert_eq!(listed(&roots, axis, 0), (vec![], 3));
    }
    assert_eq!(listed(&roots, 7, 7), (vec![(5, 10), (7, 10)], 3));
}

/// The answer of an edit of the two farms, and the five columns afterwards.
fn edited(edit: impl Fn(&mut TableMut<'_>) -> Answer) -> (Answer, [[usize; 15]; 5]) {
    let [mut key, mut size, mut level, mut kind, mut name] = [KEY, SIZE, LEVEL, KIND, NAME];
    let answer = edit(&mut TableMut {
        key: &mut key,
        size: &mut size,
        level: &mut level,
        kind: &mut kind,
        name: &mut name,
        count: 15,
    });
    (answer, [key, size, level, kind, name])
}

#[test]
fn a_root_is_deleted_while_another_remains() {
    let (answer, columns) = edited(|table| delete(table, 10));
    assert_eq!(answer, Answer { first: 5, second: 10, moved: -10, ..Answer::default() });
    for (column, whole) in columns.iter().zip([KEY, SIZE, LEVEL, KIND, NAME]) {
        assert_eq!((&column[..5], &column[5..]), (&whole[10..], &[0; 10][..]));
    }
    let (answer, columns) = edited(|table| delete(table, 60));
    assert_eq!(answer, Answer { first: 10, second: 15, moved: -5, ..Answer::default() });
    for (column, whole) in columns.iter().zip([KEY, SIZE, LEVEL, KIND, NAME]) {
        assert_eq!((&column[..10], &column[10..]), (&whole[..10], &[0; 5][..]));
    }
    // The farm that is left is the last.
    let (answer, _) = edited(|table| {
        table.count = delete(table, 60).first;
        delete(table, 10)
    });
    assert_eq!(answer, refused(15, 0));
    let (answer, _) = edited(|table| {
        table.count = delete(table, 10).first;
        delete(table, 60)
    });
    assert_eq!(answer, refused(15, 0));
}

#[test]
fn a_piece_is_one_tree() {
    let setpoints = Table {
        key: &[50, 51],
        size: &[0, 0],
        level: &[0, 0],
        kind: &[1, 1],
        name: &[4, 4],
        count: 2,
    };
    let (answer, columns) = edited(|table| insert(table, 31, &setpoints));
    assert_eq!((answer, columns), (refused(10, 0), [KEY, SIZE, LEVEL, KIND, NAME]));
}

/// The answer of a carry of the grants with room for all of them, and the new list.
fn carried(first: usize, moved: i64) -> (Answer, Vec<(usize, usize)>) {
    let (role, row): (Vec<usize>, Vec<usize>) = GRANTS.iter().copied().unzip();
    let (mut out_role, mut out_row) = (GRANTS.map(|_| 0), GRANTS.map(|_| 0));
    let results = &mut Results { role: &mut out_role, row: &mut out_row };
    let answer = carry(&Pairs { role: &role, row: &row }, 15, first, moved, results);
    (answer, out_role.into_iter().zip(out_row).take(answer.first).collect())
}

#[test]
fn grants_outlive_the_farm_before_them() {
    let accepted = |length: usize| Answer { first: length, ..Answer::default() };
    assert_eq!(carried(10, -10), (accepted(3), vec![(5, 2), (7, 0), (8, 4)]));
    assert_eq!(carried(15, -5), (accepted(4), vec![(5, 1), (5, 2), (7, 6), (8, 9)]));
    assert_eq!(carried(10, -11), (refused(17, 0), vec![]));
}
