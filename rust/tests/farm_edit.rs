//! The stated edits of the small farm through the safe wrapper.

mod room;

use reach::{Edited, Refusal, Table};
use room::{Farm, SETPOINT};

#[test]
fn the_stated_deletion_and_insertion_in_either_order() {
    let (mut one, mut other) = (Farm::new(), Farm::new());
    let (mut one, mut other) = (one.lent(), other.lent());
    let deleted = one.delete(21);
    assert_eq!(deleted, Ok(Edited::new(8, 4, -2)));
    assert_eq!(one.size[..2], [7, 2]);
    let inserted = other.insert(31, SETPOINT);
    assert_eq!(inserted, Ok(Edited::new(11, 9, 1)));
    assert_eq!((other.level[9], other.size[0], other.size[6], other.size[7]), (3, 10, 3, 2));

    one.insert(31, SETPOINT).unwrap();
    other.delete(21).unwrap();
    for table in [one, other] {
        assert_eq!(table.count, 9);
        assert_eq!(table.key[..9], [10, 20, 23, 24, 30, 31, 32, 50, 40]);
        assert_eq!(table.size[..9], [8, 2, 1, 0, 3, 2, 0, 0, 0]);
        assert_eq!(table.as_table().check(), Ok(()));
    }
}

#[test]
fn a_rename_moves_nothing() {
    let mut farm = Farm::new();
    let mut table = farm.lent();
    let renamed = table.rename(31, 8);
    assert_eq!(renamed, Ok(Edited::new(10, 10, 0)));
    assert_eq!(table.name[7], 8);
}

#[test]
fn a_refused_edit_changes_nothing() {
    let mut farm = Farm::new();
    let mut table = farm.lent();
    assert_eq!(table.insert(40, SETPOINT), Err(Refusal::NotAParent { row: 9 }));
    let taken = Table { key: &[24], ..SETPOINT };
    assert_eq!(table.insert(31, taken), Err(Refusal::KeyTaken { piece_row: 0 }));
    assert_eq!(table.delete(10), Err(Refusal::DeletesRoot));
    assert_eq!(table.rename(40, 8), Err(Refusal::BadRename { row: 9 }));
    assert_eq!(farm.columns, Farm::new().columns);
}
