//! Every axis of a deeper tree in the second program, with answers worked out by hand:
//!
//! | row | size | level | kind | name | | |
//! |---|---|---|---|---|---|---|
//! | 0 | 14 | 0 | 0 | 0 | document | |
//! | 1 | 0 | 1 | 3 | 0 | comment | |
//! | 2 | 11 | 1 | 1 | 1 | farm | |
//! | 3 | 6 | 2 | 1 | 2 | turbine | of the farm |
//! | 4 | 0 | 3 | 2 | 0 | text | |
//! | 5 | 3 | 3 | 1 | 3 | blade | of the first turbine |
//! | 6 | 0 | 4 | 1 | 4 | setpoint | of the first blade |
//! | 7 | 1 | 4 | 1 | 4 | setpoint | of the first blade |
//! | 8 | 0 | 5 | 4 | 5 | instruction | in the second setpoint |
//! | 9 | 0 | 3 | 1 | 3 | blade | of the first turbine |
//! | 10 | 0 | 2 | 2 | 0 | text | |
//! | 11 | 2 | 2 | 1 | 2 | turbine | of the farm |
//! | 12 | 0 | 3 | 1 | 3 | blade | of the second turbine |
//! | 13 | 0 | 3 | 3 | 0 | comment | |
//! | 14 | 0 | 1 | 4 | 5 | instruction | beside the farm |

use second::{step, Pairs, Question, Results, Table};

const TREE: Table<'_> = Table {
    key: &[1, 2, 3, 4, 5, 6, 7, 8, 9, 10, 11, 12, 13, 14, 15],
    size: &[14, 0, 11, 6, 0, 3, 0, 1, 0, 0, 0, 2, 0, 0, 0],
    level: &[0, 1, 1, 2, 3, 3, 4, 4, 5, 3, 2, 2, 3, 3, 1],
    kind: &[0, 3, 1, 1, 2, 1, 1, 1, 4, 1, 2, 1, 1, 3, 4],
    name: &[0, 0, 1, 2, 0, 3, 4, 4, 5, 3, 0, 2, 3, 0, 5],
    count: 15,
};

/// The rows that one role reaches from its rows, and the kept count.
fn reached(contexts: &[usize], axis: usize, test: usize, test_name: usize) -> (Vec<usize>, usize) {
    let role = vec![5; contexts.len()];
    let (mut out_role, mut out_row) = ([0; 15], [0; 15]);
    let pairs = Pairs { role: &role, row: contexts };
    let results = &mut Results { role: &mut out_role, row: &mut out_row };
    let answer = step(&TREE, &pairs, Question { axis, test, test_name }, results);
    assert_eq!(answer.refusal, 0);
    assert!(out_role[..answer.first].iter().all(|&role| role == 5));
    (out_row[..answer.first].to_vec(), answer.second)
}

/// For a context, the rows on each axis from the first to the last; any node passes.
fn assert_axes(context: usize, axes: [&[usize]; 11]) {
    for (axis, rows) in (1..).zip(axes) {
        assert_eq!(reached(&[context], axis, 0, 0), (rows.to_vec(), 1), "axis {axis}");
    }
}

#[test]
fn a_blade_with_setpoints() {
    assert_axes(
        5,
        [
            &[5],
            &[6, 7],
            &[6, 7, 8],
            &[5, 6, 7, 8],
            &[3],
            &[0, 2, 3],
            &[0, 2, 3, 5],
            &[9, 10, 11, 12, 13, 14],
            &[1, 4],
            &[9],
            &[4],
        ],
    );
}

#[test]
fn the_deepest_node() {
    assert_axes(
        8,
        [
            &[8],
            &[],
            &[],
            &[8],
            &[7],
            &[0, 2, 3, 5, 7],
            &[0, 2, 3, 5, 7, 8],
            &[9, 10, 11, 12, 13, 14],
            &[1, 4, 6],
            &[],
            &[],
        ],
    );
}

#[test]
fn a_turbine_after_another() {
    assert_axes(
        11,
        [
            &[11],
            &[12, 13],
            &[12, 13],
            &[11, 12, 13],
            &[2],
            &[0, 2],
            &[0, 2, 11],
            &[14],
            &[1, 3, 4, 5, 6, 7, 8, 9, 10],
            &[],
            &[3, 10],
        ],
    );
}

#[test]
fn the_document() {
    let all: Vec<usize> = (0..15).collect();
    let none: &[usize] = &[];
    let children: &[usize] = &[1, 2, 14];
    assert_axes(0, [&[0], children, &all[1..], &all, none, none, &[0], none, none, none, none]);
}

#[test]
fn several_contexts_reach_a_row_once() {
    assert_eq!(reached(&[5, 5, 8, 9], 8, 0, 0), (vec![9, 10, 11, 12, 13, 14], 1));
    assert_eq!(reached(&[5, 8, 12], 9, 0, 0).0, [1, 3, 4, 5, 6, 7, 8, 9, 10]);
    assert_eq!(reached(&[4, 9, 10], 11, 0, 0), (vec![3, 4, 5], 3));
    assert_eq!(reached(&[6, 7, 12], 5, 0, 0), (vec![5, 11], 3));
}

#[test]
fn every_test_picks_its_nodes() {
    let of_all = |test: usize, test_name: usize| reached(&[0], 4, test, test_name).0;
    assert_eq!(of_all(1, 0), [2, 3, 5, 6, 7, 9, 11, 12]);
    assert_eq!(of_all(2, 3), [5, 9, 12]);
    assert_eq!(of_all(2, 5), []);
    assert_eq!(of_all(3, 0), [4, 10]);
    assert_eq!(of_all(4, 0), [1, 13]);
    assert_eq!(of_all(5, 0), [8, 14]);
    assert_eq!(of_all(6, 5), [8, 14]);
    assert_eq!(of_all(6, 3), []);
    assert_eq!(of_all(7, 0), [0]);
}

#[test]
fn redundant_pairs_are_dropped_from_the_kept_count() {
    // Row 5 is below row 3, row 8 below both, and row 11 beside them.
    let kept = |axis: usize| reached(&[3, 3, 5, 8, 11], axis, 0, 0).1;
    assert_eq!((1..=11).map(kept).collect::<Vec<_>>(), [4, 4, 2, 2, 4, 2, 2, 1, 1, 4, 4]);
}
