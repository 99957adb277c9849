//! Lists of changes to the farm, with answers worked out by hand: all done, stopped by each refusal
//! of an item, and refused as a whole.

use super::edits::{farm_with_room, SPARE};
use super::two_farms::{joined, on_farms, second_farm};
use crate::case::{Answer, Call, Case};
use crate::judge::{Difference, Judge};
use lent::{Columns, Items, DELETE, RENAME};

/// Code, key and name of each item.
type List<'a> = &'a [(usize, usize, usize)];

/// A blade and the comment go, a turbine and a setpoint get other names.
const WEEKEND: List<'static> =
    &[(DELETE, 21, 0), (RENAME, 30, 5), (DELETE, 40, 9), (RENAME, 24, 6)];

fn items(list: List<'_>) -> Items {
    let mut items = Items::default();
    list.iter().for_each(|&(code, key, name)| items.push(code, key, name));
    items
}

/// So many done, and the count then.
fn accepted(done: usize, count: usize) -> Answer {
    Answer { first: done, second: count, ..Answer::default() }
}

/// The same with the refusal and its place.
fn stopped(done: usize, count: usize, number: usize, place: usize) -> Answer {
    Answer { first: done, second: count, ..Answer::refused(number, place) }
}

/// Poses the lists.
pub fn run(judge: &mut Judge<'_>) -> Result<(), Difference> {
    weekend(judge)?;
    items_that_stop(judge)?;
    most_items(judge)?;
    farms_until_the_last(judge)?;
    bad_lists(judge)
}

/// Poses a list for the farm, which leaves these columns.
fn pose(
    judge: &mut Judge<'_>,
    name: &str,
    list: List<'_>,
    answer: Answer,
    after: Columns,
) -> Result<(), Difference> {
    let case = Case { table: farm_with_room(), count: 10, call: Call::Batch(items(list)) };
    let after = Case { table: after, ..case.clone() };
    judge.pose_stated(name, case, answer, after)
}

/// The farm without the rows of keys 21 and 22.
fn without_blade() -> Columns {
    Columns {
        key: vec![10, 20, 23, 24, 30, 31, 32, 40, 0, 0, SPARE],
        size: vec![7, 2, 1, 0, 2, 1, 0, 0, 0, 0, SPARE],
        level: vec![0, 1, 2, 3, 1, 2, 3, 1, 0, 0, SPARE],
        kind: vec![1, 1, 1, 1, 1, 1, 1, 3, 0, 0, SPARE],
        name: vec![1, 2, 3, 4, 2, 3, 4, 0, 0, 0, SPARE],
    }
}

fn weekend(judge: &mut Judge<'_>) -> Result<(), Difference> {
    let done = Columns {
        key: vec![10, 20, 23, 24, 30, 31, 32, 0, 0, 0, SPARE],
        size: vec![6, 2, 1, 0, 2, 1, 0, 0, 0, 0, SPARE],
        level: vec![0, 1, 2, 3, 1, 2, 3, 0, 0, 0, SPARE],
        kind: vec![1, 1, 1, 1, 1, 1, 1, 0, 0, 0, SPARE],
        name: vec![1, 2, 3, 6, 5, 3, 4, 0, 0, 0, SPARE],
    };
    pose(judge, "a weekend's changes", WEEKEND, accepted(4, 7), done)?;
    pose(judge, "no changes", &[], accepted(0, 10), farm_with_room())
}

/// Each refusal of an item: those before it stay done, those behind it are not tried.
fn items_that_stop(judge: &mut Judge<'_>) -> Result<(), Difference> {
    let mut renamed = without_blade();
    renamed.name[4] = 5;
    let gone = [WEEKEND[0], WEEKEND[1], (RENAME, 22, 6), WEEKEND[2]];
    pose(judge, "a setpoint gone with its blade", &gone, stopped(2, 8, 9, 0), renamed)?;
    let again = [WEEKEND[0], (DELETE, 21, 0), WEEKEND[1]];
    pose(judge, "deleted once more", &again, stopped(1, 8, 9, 0), without_blade())?;
    let moved = [WEEKEND[0], (RENAME, 40, 5), WEEKEND[1]];
    pose(judge, "the comment is now row 7", &moved, stopped(1, 8, 16, 7), without_blade())?;
    let unnamed = [WEEKEND[0], (RENAME, 31, 0), WEEKEND[1]];
    pose(judge, "key 31 is now row 5", &unnamed, stopped(1, 8, 16, 5), without_blade())?;
    let root = [WEEKEND[0], (DELETE, 10, 0), WEEKEND[1]];
    pose(judge, "the only root", &root, stopped(1, 8, 15, 0), without_blade())?;
    let first = [(DELETE, 0, 0), WEEKEND[0]];
    pose(judge, "the first item", &first, stopped(0, 10, 9, 0), farm_with_room())
}

/// 255 and 256 renames of one row, and an item behind them that is refused.
fn most_items(judge: &mut Judge<'_>) -> Result<(), Difference> {
    let renames: Vec<(usize, usize, usize)> = (1..=256).map(|name| (RENAME, 31, name)).collect();
    for length in [255, 256] {
        let mut after = farm_with_room();
        after.name[7] = length;
        pose(judge, "most items", &renames[..length], accepted(length, 10), after)?;
    }
    let mut last_refused = renames;
    last_refused[255] = (DELETE, 10, 0);
    let mut after = farm_with_room();
    after.name[7] = 255;
    pose(judge, "the last of most items", &last_refused, stopped(255, 10, 15, 0), after)
}

/// With two farms the first root goes, and then the other is the only one.
fn farms_until_the_last(judge: &mut Judge<'_>) -> Result<(), Difference> {
    let list = items(&[(RENAME, 61, 8), (DELETE, 10, 0), (DELETE, 60, 0), (DELETE, 70, 0)]);
    let case = on_farms(Call::Batch(list));
    let freed = joined(&[], (0, 10));
    let mut table = joined(&[second_farm(), freed], (SPARE, 1));
    table.name[1] = 8;
    let after = Case { table, ..case.clone() };
    judge.pose_stated("farms until the last", case, stopped(2, 5, 15, 0), after)
}

/// What is refused as a whole leaves all as it is, whatever stands before the bad place, and a bad
/// table comes before a bad list.
fn bad_lists(judge: &mut Judge<'_>) -> Result<(), Difference> {
    for (name, list) in all_bad_lists() {
        let mut unsound = farm_with_room();
        unsound.size[6] = 3;
        let tables = [
            (farm_with_room(), 10, stopped(0, 10, 18, 0)),
            (unsound.clone(), 10, stopped(0, 10, 2, 6)),
            (unsound, 12, stopped(0, 12, 1, 0)),
            (farm_with_room(), usize::MAX, stopped(0, usize::MAX, 1, 0)),
        ];
        for (table, count, answer) in tables {
            let case = Case { table, count, call: Call::Batch(list.clone()) };
            judge.pose_stated(name, case.clone(), answer, case)?;
        }
    }
    Ok(())
}

fn all_bad_lists() -> Vec<(&'static str, Items)> {
    let mut lists = Vec::new();
    for column in 0..3 {
        let (mut shorter, mut longer) = (items(WEEKEND), items(WEEKEND));
        shorter.each_mut()[column].pop();
        longer.each_mut()[column].push(1);
        lists.extend([("a column too short", shorter), ("a column too long", longer)]);
    }
    let too_many = vec![(RENAME, 31, 9); 257];
    lists.push(("257 items", items(&too_many)));
    for code in [0, 3, usize::MAX] {
        let refused_before = [WEEKEND[0], (DELETE, 0, 0), (code, 30, 5)];
        lists.push(("a bad code behind a refused item", items(&refused_before)));
        lists.push(("a bad code alone", items(&[(code, 30, 5)])));
    }
    lists
}
