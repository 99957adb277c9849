//! Pairs of the small farm, carried over edits through the safe wrapper.

mod room;

use reach::{Edited, Pairs, Refusal, Results, TableMut};
use room::{Farm, SETPOINT};

const PAIRS: Pairs<'static> = Pairs { role: &[5, 5, 7], row: &[1, 2, 6] };

/// What the places of result columns hold before a call.
const UNWRITTEN: usize = 77;

/// The new list, and nothing is written beyond it.
fn carried(pairs: Pairs<'_>, edited: Edited) -> Result<Vec<(usize, usize)>, Refusal> {
    let (mut role, mut row) = ([UNWRITTEN; 5], [UNWRITTEN; 6]);
    let length = pairs.carry(&edited, Results { role: &mut role, row: &mut row })?;
    let beyond = role[length..].iter().chain(&row[length..]);
    assert_eq!(beyond.filter(|&&number| number != UNWRITTEN).count(), 0);
    Ok(role.into_iter().zip(row).take(length).collect())
}

/// Carries a list over an edit and gives the keys that it names afterwards.
fn keys_after(list: &mut Vec<(usize, usize)>, edited: Edited, farm: &TableMut<'_>) -> Vec<usize> {
    let (role, row): (Vec<usize>, Vec<usize>) = list.iter().copied().unzip();
    *list = carried(Pairs { role: &role, row: &row }, edited).unwrap();
    list.iter().map(|&(_, row)| farm.key[row]).collect()
}

#[test]
fn grants_keep_their_keys_over_the_stated_edits() {
    let mut farm = Farm::new();
    let mut farm = farm.lent();
    let mut list = vec![(5, 1), (5, 2), (7, 6), (7, 9)];
    let deleted = farm.delete(21).unwrap();
    assert_eq!(keys_after(&mut list, deleted, &farm), [20, 30, 40]);
    let inserted = farm.insert(31, SETPOINT).unwrap();
    assert_eq!(keys_after(&mut list, inserted, &farm), [20, 30, 40]);
    assert_eq!(list, [(5, 1), (7, 4), (7, 8)]);
    let renamed = farm.rename(31, 8).unwrap();
    assert_eq!(keys_after(&mut list, renamed, &farm), [20, 30, 40]);
    assert_eq!(list, [(5, 1), (7, 4), (7, 8)]);
}

#[test]
fn equal_pairs_stay_equal() {
    let pairs = Pairs { role: &[5, 5, 5, 7], row: &[2, 4, 4, 4] };
    let deleted = Edited::new(8, 4, -2);
    assert_eq!(carried(pairs, deleted), Ok(vec![(5, 2), (5, 2), (7, 2)]));
}

#[test]
fn a_refused_carry_writes_nothing() {
    let deleted = Edited::new(8, 4, -2);
    let (mut role, mut row) = ([1; 3], [1; 1]);
    let results = Results { role: &mut role, row: &mut row };
    let refused = PAIRS.carry(&deleted, results);
    assert_eq!(refused, Err(Refusal::TooManyResults { results: 2 }));
    assert_eq!((role, row), ([1; 3], [1; 1]));
    let refusal = |role, row| carried(Pairs { role, row }, deleted).unwrap_err();
    assert_eq!(refusal(&[5], &[1, 2]), Refusal::BadPairColumns);
    assert_eq!(refusal(&[5, 5], &[2, 1]), Refusal::PairOutOfOrder { place: 1 });
    // The table had ten rows before the edit.
    assert_eq!(refusal(&[5, 5], &[9, 10]), Refusal::PairOutsideTable { place: 1 });
}

#[test]
fn numbers_that_no_edit_answers_are_refused() {
    let refusal = |count: usize, first_moved_row: usize, moved: i64| {
        carried(PAIRS, Edited::new(count, first_moved_row, moved)).unwrap_err()
    };
    for (first_moved_row, moved) in [(0, -2), (11, -2), (1, -2), (usize::MAX, -2), (10, -10)] {
        let count = 10_usize.checked_add_signed(moved).unwrap();
        assert_eq!(refusal(count, first_moved_row, moved as i64), Refusal::BadMove);
    }
    assert_eq!(refusal(4_097, 10, 4_087), Refusal::BadMove);
    let no_counts = [
        (0, 0),
        (8, 8),
        (8, 9),
        (4_097, 0),
        (4_096, -1),
        (0, i64::MAX),
        (0, i64::MIN),
        (usize::MAX, i64::MIN),
        (usize::MAX, 1),
    ];
    for (count, moved) in no_counts {
        assert_eq!(refusal(count, 1, moved), Refusal::BadCount);
    }
}
