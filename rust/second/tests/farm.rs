//! The small farm in the second program: the numbers that the rules state.

use second::{batch, carry, check, find};
use second::{Answer, Found, Items, Pairs, Results, Table, TableMut};

const KEY: [usize; 10] = [10, 20, 21, 22, 23, 24, 30, 31, 32, 40];
const SIZE: [usize; 10] = [9, 4, 1, 0, 1, 0, 2, 1, 0, 0];
const LEVEL: [usize; 10] = [0, 1, 2, 3, 2, 3, 1, 2, 3, 1];
const KIND: [usize; 10] = [1, 1, 1, 1, 1, 1, 1, 1, 1, 3];
const NAME: [usize; 10] = [1, 2, 3, 4, 3, 4, 2, 3, 4, 0];

fn farm() -> Table<'static> {
    Table { key: &KEY, size: &SIZE, level: &LEVEL, kind: &KIND, name: &NAME, count: 10 }
}

fn refused(refusal: usize, place: usize) -> Answer {
    Answer { refusal, place, ..Answer::default() }
}

#[test]
fn the_farm_is_sound() {
    assert_eq!(check(&farm()), Answer::default());
}

#[test]
fn each_key_is_found_with_its_level_and_its_parent() {
    let parents = [-1, 0, 1, 2, 1, 4, 0, 6, 7, 0];
    for (row, parent) in parents.into_iter().enumerate() {
        let found = Found { row, level: LEVEL[row], parent, ..Found::default() };
        assert_eq!(find(&farm(), KEY[row]), found);
    }
}

#[test]
fn a_find_is_refused_in_its_order() {
    let refused = |refusal: usize, place: usize| Found { refusal, place, ..Found::default() };
    for key_wanted in [0, 11, usize::MAX] {
        assert_eq!(find(&farm(), key_wanted), refused(9, 0));
    }
    // Rows 4 and 7 are not sound, and no row has the key.
    let mut name = NAME;
    (name[4], name[7]) = (0, 0);
    let damaged = Table { name: &name, ..farm() };
    assert_eq!(find(&damaged, 0), refused(2, 4));
    assert_eq!(find(&damaged, 20), refused(2, 4));
    for count in [0, 11, 4_097, usize::MAX] {
        assert_eq!(find(&Table { count, ..damaged }, 0), refused(1, 0));
    }
    // A row that is not in use is not found.
    let alone = Table { size: &[0], count: 1, ..farm() };
    assert_eq!(find(&alone, 20), refused(9, 0));
}

#[test]
fn each_rule_can_be_broken() {
    let broken = |column: [usize; 10], row: usize, value: usize| {
        let mut column = column;
        column[row] = value;
        column
    };
    let level = broken(LEVEL, 4, 5);
    let size = broken(SIZE, 4, usize::MAX);
    let kind = broken(KIND, 4, 3);
    let name = broken(NAME, 4, 0);
    let key = broken(KEY, 4, 10);
    let tables = [
        Table { size: &size, ..farm() },
        Table { kind: &kind, ..farm() },
        Table { name: &name, ..farm() },
        Table { key: &key, ..farm() },
    ];
    for table in tables {
        assert_eq!(check(&table), refused(2, 4));
    }
    // Row 4 is now too deep, but it also makes the size of row 2 wrong, and that is the lesser.
    let table = Table { level: &level, ..farm() };
    assert_eq!(check(&table), refused(2, 2));
}

#[test]
fn the_largest_numbers_do_no_harm() {
    let most = [usize::MAX; 10];
    let table = Table { level: &most, ..farm() };
    assert_eq!(check(&table), refused(2, 0));
    let level = [0, usize::MAX, 0, usize::MAX, 1, 2, 1, 1, 1, 1];
    let table = Table { level: &level, ..farm() };
    assert_eq!(check(&table), refused(2, 0));
    let table = Table { count: usize::MAX, ..farm() };
    assert_eq!(check(&table), refused(1, 0));
}

/// What the places of result columns hold before a call.
const UNWRITTEN: usize = 77;

/// The answer of a carry with room for so many pairs, and the result columns afterwards.
fn carried(
    list: &[(usize, usize)],
    [old_count, first]: [usize; 2],
    moved: i64,
    room: usize,
) -> (Answer, Vec<(usize, usize)>) {
    let (role, row): (Vec<usize>, Vec<usize>) = list.iter().copied().unzip();
    let (mut out_role, mut out_row) = (vec![UNWRITTEN; room], vec![UNWRITTEN; room + 1]);
    let pairs = Pairs { role: &role, row: &row };
    let results = &mut Results { role: &mut out_role, row: &mut out_row };
    let answer = carry(&pairs, old_count, first, moved, results);
    assert_eq!(out_row[room], UNWRITTEN);
    (answer, out_role.into_iter().zip(out_row).collect())
}

/// The new list of an accepted carry, which fills its columns.
fn new_list(list: &[(usize, usize)], old: [usize; 2], moved: i64) -> Vec<(usize, usize)> {
    let (answer, mut written) = carried(list, old, moved, list.len());
    assert_eq!(answer, Answer { first: answer.first, ..Answer::default() });
    assert!(written[answer.first..].iter().all(|&pair| pair == (UNWRITTEN, UNWRITTEN)));
    written.truncate(answer.first);
    written
}

const GRANTS: [(usize, usize); 3] = [(5, 1), (5, 2), (7, 6)];

#[test]
fn grants_move_with_their_rows() {
    // Key 21 goes with its setpoint: rows 2 and 3.
    assert_eq!(new_list(&GRANTS, [10, 4], -2), [(5, 1), (7, 4)]);
    // A setpoint comes in as row 9, before the comment.
    assert_eq!(new_list(&GRANTS, [10, 9], 1), GRANTS);
    assert_eq!(new_list(&[(7, 8), (7, 9)], [10, 9], 1), [(7, 8), (7, 10)]);
    // A rename moves nothing, and equal pairs stay equal.
    assert_eq!(new_list(&[(5, 9), (5, 9)], [10, 10], 0), [(5, 9), (5, 9)]);
    assert_eq!(new_list(&[(5, 2), (5, 3)], [10, 4], -2), []);
}

#[test]
fn a_move_that_no_edit_makes_is_told_from_one_that_cannot_be() {
    for (first, moved) in [(0, 0), (11, 0), (usize::MAX, 0), (2, -3), (10, -10), (10, 4_087)] {
        assert_eq!(carried(&GRANTS, [10, first], moved, 0).0, refused(17, 0));
    }
    for moved in [i64::MIN, i64::MAX] {
        assert_eq!(carried(&[], [4_096, 4_096], moved, 0).0, refused(17, 0));
    }
    assert_eq!(new_list(&GRANTS, [10, 3], -2), [(7, 4)]);
    assert_eq!(new_list(&GRANTS, [10, 2], -2), [(5, 0), (7, 4)]);
    assert_eq!(new_list(&GRANTS, [10, 10], -9), []);
    assert_eq!(new_list(&GRANTS, [10, 2], 4_086), [(5, 1), (5, 4_088), (7, 4_092)]);
    assert_eq!(new_list(&GRANTS, [10, 3], 0), GRANTS);
}

#[test]
fn a_carry_is_refused_in_its_order() {
    let untouched = |room: usize| vec![(UNWRITTEN, UNWRITTEN); room];
    assert_eq!(carried(&GRANTS, [10, 4], -2, 1), (refused(8, 2), untouched(1)));
    assert_eq!(carried(&GRANTS, [0, 4], -2, 1), (refused(1, 0), untouched(1)));
    assert_eq!(carried(&GRANTS, [4_097, 4], -2, 1), (refused(1, 0), untouched(1)));
    // Row 6 is not below the old count, though it is below the new one.
    assert_eq!(carried(&GRANTS, [6, 0], 9, 1), (refused(5, 2), untouched(1)));
    assert_eq!(carried(&[(7, 9), (5, 0)], [1, 0], 0, 1), (refused(4, 1), untouched(1)));
    let results = &mut Results { role: &mut [], row: &mut [] };
    let unequal = Pairs { role: &[5, 5], row: &[1] };
    assert_eq!(carry(&unequal, 1, 0, 0, results), refused(3, 0));
}

/// The answer of a batch for the farm, and its columns afterwards.
fn batched(code: &[usize], key: &[usize], name: &[usize]) -> (Answer, [[usize; 10]; 5]) {
    let mut columns = [KEY, SIZE, LEVEL, KIND, NAME];
    let [own_key, size, level, kind, own_name] = &mut columns;
    let table = &mut TableMut { key: own_key, size, level, kind, name: own_name, count: KEY.len() };
    let answer = batch(table, &Items { code, key, name });
    (answer, columns)
}

#[test]
fn a_batch_does_its_items_in_their_order() {
    let (answer, [key, size, level, kind, name]) =
        batched(&[1, 2, 1, 2], &[21, 30, 40, 24], &[0, 5, 9, 6]);
    assert_eq!(answer, Answer { first: 4, second: 7, ..Answer::default() });
    assert_eq!(key, [10, 20, 23, 24, 30, 31, 32, 0, 0, 0]);
    assert_eq!(size, [6, 2, 1, 0, 2, 1, 0, 0, 0, 0]);
    assert_eq!(level, [0, 1, 2, 3, 1, 2, 3, 0, 0, 0]);
    assert_eq!(kind, [1, 1, 1, 1, 1, 1, 1, 0, 0, 0]);
    assert_eq!(name, [1, 2, 3, 6, 5, 3, 4, 0, 0, 0]);
    let untouched = [KEY, SIZE, LEVEL, KIND, NAME];
    let none = Answer { second: 10, ..Answer::default() };
    assert_eq!(batched(&[], &[], &[]), (none, untouched));
}

#[test]
fn a_batch_stops_at_the_first_item_that_is_refused() {
    let stopped = |refusal: usize, place: usize, [first, second]: [usize; 2]| Answer {
        first,
        second,
        ..refused(refusal, place)
    };
    // Key 22 goes with key 21.
    let (answer, [key, .., name]) = batched(&[1, 2, 2, 1], &[21, 30, 22, 40], &[0, 5, 6, 0]);
    assert_eq!(answer, stopped(9, 0, [2, 8]));
    assert_eq!((key[7], name[4]), (40, 5));
    // The comment was in row 9, and is in row 7 when its turn comes.
    assert_eq!(batched(&[1, 2], &[21, 40], &[0, 5]).0, stopped(16, 7, [1, 8]));
    assert_eq!(batched(&[1, 2], &[21, 24], &[0, 0]).0, stopped(16, 3, [1, 8]));
    assert_eq!(batched(&[2, 1, 2], &[10, 10, 20], &[5, 5, 5]).0, stopped(15, 0, [1, 10]));
    assert_eq!(batched(&[1], &[0], &[0]).0, stopped(9, 0, [0, 10]));
}

#[test]
fn a_bad_list_is_refused_whole() {
    let bad = (Answer { second: 10, ..refused(18, 0) }, [KEY, SIZE, LEVEL, KIND, NAME]);
    for code in [0, 3, usize::MAX] {
        assert_eq!(batched(&[1, 1, code], &[21, 0, 30], &[0, 0, 5]), bad);
    }
    assert_eq!(batched(&[1], &[21, 22], &[0, 0]), bad);
    assert_eq!(batched(&[1, 1], &[21], &[0, 0]), bad);
    assert_eq!(batched(&[1, 1], &[21, 22], &[0]), bad);
    assert_eq!(batched(&[2; 257], &[30; 257], &[5; 257]), bad);
    let all = batched(&[2; 256], &[30; 256], &[5; 256]).0;
    assert_eq!(all, Answer { first: 256, second: 10, ..Answer::default() });
}
