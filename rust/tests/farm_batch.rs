//! Lists of changes to the small farm through the safe wrapper.

mod room;

use reach::codes::{ITEM_DELETE, ITEM_RENAME};
use reach::{boundary, Edited, Items, Refusal};
use room::{Farm, SETPOINT};

/// A blade and the comment go, a turbine and a setpoint get other names.
const WEEKEND: Items<'static> = Items {
    code: &[ITEM_DELETE, ITEM_RENAME, ITEM_DELETE, ITEM_RENAME],
    key: &[21, 30, 40, 24],
    name: &[0, 5, 9, 6],
};

#[test]
fn all_items_are_done_as_by_calls_of_their_own() {
    let (mut one, mut other) = (Farm::new(), Farm::new());
    let (mut at_once, mut one_by_one) = (one.lent(), other.lent());
    let batched = at_once.batch(WEEKEND);
    assert_eq!((batched.done, batched.count, batched.refusal), (4, 7, None));
    assert_eq!(batched.all_done(), Ok(4));
    assert_eq!(at_once.count, 7);
    assert_eq!(at_once.as_table().check(), Ok(()));

    one_by_one.delete(21).unwrap();
    one_by_one.rename(30, 5).unwrap();
    one_by_one.delete(40).unwrap();
    one_by_one.rename(24, 6).unwrap();
    assert_eq!(at_once, one_by_one);
    assert_eq!(at_once.key, [10, 20, 23, 24, 30, 31, 32, 0, 0, 0, 77]);
    assert_eq!(at_once.name, [1, 2, 3, 6, 5, 3, 4, 0, 0, 0, 77]);

    // The next edit goes on with the count.
    assert_eq!(at_once.insert(31, SETPOINT), Ok(Edited::new(8, 7, 1)));
}

#[test]
fn what_is_done_before_a_refused_item_stays_done() {
    let mut farm = Farm::new();
    let mut table = farm.lent();
    // The setpoint with the key 22 goes with its blade.
    let items = Items { key: &[21, 30, 22, 24], code: &[1, 2, 2, 2], ..WEEKEND };
    let batched = table.batch(items);
    assert_eq!((batched.done, batched.count), (2, 8));
    assert_eq!(batched.refusal, Some(Refusal::UnknownKey));
    assert_eq!(batched.all_done(), Err(Refusal::UnknownKey));
    assert_eq!(table.count, 8);
    assert_eq!(table.name[..8], [1, 2, 3, 4, 5, 3, 4, 0]);

    // The comment stands in row 7 now, and in row 6 once key 24 is gone.
    let unnamed = Items { code: &[1, 2], key: &[24, 40], name: &[0, 5] };
    let batched = table.batch(unnamed);
    assert_eq!((batched.done, batched.count), (1, 7));
    assert_eq!(batched.refusal, Some(Refusal::BadRename { row: 6 }));

    let root = Items { code: &[2, 1, 2], key: &[20, 10, 30], name: &[8, 0, 8] };
    let batched = table.batch(root);
    assert_eq!((batched.done, batched.count), (1, 7));
    assert_eq!(batched.refusal, Some(Refusal::DeletesRoot));
    assert_eq!((table.name[1], table.name[3]), (8, 5));
}

#[test]
fn an_empty_list_is_done() {
    let mut farm = Farm::new();
    let none = Items { code: &[], key: &[], name: &[] };
    assert_eq!(farm.lent().batch(none).all_done(), Ok(0));
    assert_eq!(farm.columns, Farm::new().columns);
}

#[test]
fn a_bad_list_changes_nothing() {
    let mut farm = Farm::new();
    let mut refused = |items: Items<'_>| {
        let mut table = farm.lent();
        let batched = table.batch(items);
        assert_eq!((batched.done, batched.count, table.count), (0, 10, 10));
        assert_eq!(farm.columns, Farm::new().columns);
        batched.refusal
    };
    let bad = Some(Refusal::Unlisted { number: 18, place: 0 });
    assert_eq!(refused(Items { code: &[1, 2, 1], ..WEEKEND }), bad);
    assert_eq!(refused(Items { key: &[21, 30, 40], ..WEEKEND }), bad);
    assert_eq!(refused(Items { name: &[0, 5, 9, 6, 6], ..WEEKEND }), bad);
    for code in [0, 3, usize::MAX] {
        assert_eq!(refused(Items { code: &[1, 2, 1, code], ..WEEKEND }), bad);
        // Also behind an item that would be refused.
        assert_eq!(refused(Items { code: &[1, code], key: &[99, 30], name: &[0, 5] }), bad);
    }
    let (code, key, name) = ([ITEM_RENAME; 257], [30; 257], [5; 257]);
    assert_eq!(refused(Items { code: &code, key: &key, name: &name }), bad);
}

#[test]
fn as_many_items_as_there_can_be_are_done() {
    let mut farm = Farm::new();
    let (code, key) = ([ITEM_RENAME; 256], [30; 256]);
    let name: [usize; 256] = std::array::from_fn(|place| place + 1);
    let items = Items { code: &code, key: &key, name: &name };
    assert_eq!(farm.lent().batch(items).all_done(), Ok(256));
    assert_eq!(farm.columns[4][6], 256);
}

#[test]
fn a_bad_table_comes_before_a_bad_list() {
    let mut farm = Farm::new();
    let bad = Items { code: &[3], ..WEEKEND };
    farm.columns[1][6] = 3;
    let batched = farm.lent().batch(bad);
    assert_eq!((batched.done, batched.count), (0, 10));
    assert_eq!(batched.refusal, Some(Refusal::UnsoundRow { row: 6 }));
    let mut table = farm.lent();
    table.count = 12;
    let batched = table.batch(bad);
    assert_eq!((batched.done, batched.count, table.count), (0, 12, 12));
    assert_eq!(batched.refusal, Some(Refusal::BadCount));
}

#[test]
fn with_bare_numbers_a_refusal_says_how_far_it_came() {
    let mut farm = Farm::new();
    let mut table = farm.lent();
    let items = Items { code: &[1, 1], key: &[21, 21], name: &[0, 0] };
    let answer = boundary::batch(&mut table, items);
    assert_eq!((answer.refusal, answer.place), (9, 0));
    assert_eq!((answer.first, answer.second, answer.moved), (1, 8, 0));
}
