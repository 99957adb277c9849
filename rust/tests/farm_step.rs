//! The stated steps of the small farm through the safe wrapper.

use reach::{farm, Axis, Pairs, Refusal, Results, Stepped, Test};

const PAIRS: Pairs<'static> = Pairs { role: &[5, 5, 7], row: &[1, 2, 6] };

/// The results and the kept count.
fn step(axis: Axis, test: Test) -> (Vec<(usize, usize)>, usize) {
    let (mut role, mut row) = ([0; 20], [0; 20]);
    let results = Results { role: &mut role, row: &mut row };
    let Stepped { results, kept, .. } = farm::table().step(PAIRS, axis, test, results).unwrap();
    (role.into_iter().zip(row).take(results).collect(), kept)
}

#[test]
fn the_stated_steps() {
    let setpoints = step(Axis::Descendant, Test::Element(4));
    assert_eq!(setpoints, (vec![(5, 3), (5, 5), (7, 8)], 2));
    let children = step(Axis::Child, Test::AnyNode);
    assert_eq!(children, (vec![(5, 2), (5, 3), (5, 4), (7, 7)], 3));
    let ancestors = step(Axis::Ancestor, Test::AnyNode);
    assert_eq!(ancestors, (vec![(5, 0), (5, 1), (7, 0)], 2));
    let (following, kept) = step(Axis::Following, Test::AnyNode);
    assert_eq!((following.len(), following[0], following[6], kept), (7, (5, 4), (7, 9), 2));
    let preceding = step(Axis::Preceding, Test::AnyElement);
    assert_eq!(preceding, (vec![(7, 1), (7, 2), (7, 3), (7, 4), (7, 5)], 2));
    let siblings = step(Axis::FollowingSibling, Test::AnyNode);
    assert_eq!(siblings, (vec![(5, 4), (5, 6), (5, 9), (7, 9)], 3));
    assert_eq!(step(Axis::Itself, Test::Comment), (vec![], 3));
}

#[test]
fn every_axis_and_test_has_its_code() {
    for (place, axis) in Axis::ALL.iter().enumerate() {
        assert_eq!(axis.code(), place + 1);
    }
    let tests = [
        Test::AnyNode,
        Test::AnyElement,
        Test::Element(9),
        Test::Text,
        Test::Comment,
        Test::AnyInstruction,
        Test::Instruction(9),
        Test::Document,
    ];
    for (code, test) in tests.into_iter().enumerate() {
        assert_eq!(test.code(), code);
        assert_eq!(test.name(), if matches!(code, 2 | 6) { 9 } else { 0 });
    }
}

#[test]
fn a_refused_step_writes_nothing() {
    let (mut role, mut row) = ([1; 2], [1; 3]);
    let results = Results { role: &mut role, row: &mut row };
    let refused = farm::table().step(PAIRS, Axis::Descendant, Test::Element(4), results);
    assert_eq!(refused, Err(Refusal::TooManyResults { results: 3 }));
    assert_eq!((role, row), ([1; 2], [1; 3]));
    let results = Results { role: &mut role, row: &mut row };
    let refused = farm::table().step(PAIRS, Axis::Descendant, Test::Element(0), results);
    assert_eq!(refused, Err(Refusal::BadTest));
}
