//! The small farm through the safe wrapper.

use reach::{boundary, farm, Refusal, Table};

#[test]
fn the_farm_is_sound_and_each_key_is_found() {
    assert_eq!(farm::table().check(), Ok(()));
    let parents =
        [None, Some(0), Some(1), Some(2), Some(1), Some(4), Some(0), Some(6), Some(7), Some(0)];
    for (row, parent) in parents.into_iter().enumerate() {
        let found = farm::table().find(farm::KEY[row]).unwrap();
        assert_eq!((found.row, found.level, found.parent), (row, farm::LEVEL[row], parent));
    }
    assert_eq!(farm::table().find(0), Err(Refusal::UnknownKey));
}

#[test]
fn a_find_is_refused_as_a_check_is() {
    let few = Table { count: 0, ..farm::table() };
    assert_eq!(few.find(20), Err(Refusal::BadCount));
    let mut kind = farm::KIND;
    kind[7] = 9;
    let damaged = Table { kind: &kind, ..farm::table() };
    assert_eq!(damaged.find(99), Err(Refusal::UnsoundRow { row: 7 }));
}

#[test]
fn with_bare_numbers_a_root_has_parent_minus_one_and_a_refusal_nothing() {
    let root = boundary::find(farm::table(), 10);
    assert_eq!((root.refusal, root.row, root.level, root.parent), (0, 0, 0, -1));
    let unknown = boundary::find(farm::table(), 99);
    assert_eq!((unknown.refusal, unknown.place), (9, 0));
    assert_eq!((unknown.row, unknown.level, unknown.parent), (0, 0, 0));
}

#[test]
fn a_count_must_fit_the_columns() {
    for count in [0, 11, 4_097, usize::MAX] {
        let table = Table { count, ..farm::table() };
        assert_eq!(table.check(), Err(Refusal::BadCount));
    }
    let empty = Table { key: &[], size: &[], level: &[], kind: &[], name: &[], count: 0 };
    assert_eq!(empty.check(), Err(Refusal::BadCount));
}

#[test]
fn spare_rows_are_not_read() {
    let mut key = farm::KEY.to_vec();
    key.extend([10, 0, usize::MAX]);
    let table = Table { key: &key, ..farm::table() };
    assert_eq!(table.check(), Ok(()));
    assert_eq!(table.find(usize::MAX), Err(Refusal::UnknownKey));
}

#[test]
fn a_later_level_can_make_an_earlier_size_wrong() {
    let mut level = farm::LEVEL;
    level[8] = 1;
    let table = Table { level: &level, ..farm::table() };
    assert_eq!(table.check(), Err(Refusal::UnsoundRow { row: 6 }));
}
