//! Batches of deletions and renames in a plant of up to 4,096 rows.

use crate::race::{Race, Times};
use crate::report::{counted, figure, Group};
use crate::tables::plant;
use lent::{Columns, Items, DELETE, MOST_ITEMS, RENAME};

/// A batch takes at most so many times what plain Rust takes.
const BAR: f64 = 1.3;
/// Twice the items, or twice the rows, take at most so many times the time.
const GROWTH_BAR: f64 = 2.3;
/// A list of 256 renames takes at most so many times what a single rename takes.
const GAIN_BAR: f64 = 2.0;

const ROWS: usize = 4_096;

/// Makes a list of up to so many items for a table.
type Make = fn(&Columns, usize) -> Items;

const LISTS: [(&str, Make); 3] = [
    ("renames", renames),
    ("deletions at the front", deletions),
    ("deletions and renames", by_turns),
];

pub fn run(race: &Race) {
    let mut group = Group::new("batch, microseconds a call");
    for rows in [64, 512, ROWS] {
        let table = plant(rows);
        for (name, make) in LISTS {
            let items = make(&table, MOST_ITEMS);
            let line = format!("{}, {} {name}", counted(rows), items.code.len());
            group.line_with_bar(&line, time(race, &table, &items), BAR);
        }
    }
    group.mean();
    growth(race);
    gain(race);
}

/// The same list over half of it, and the same number of items in a table of half the rows.
fn growth(race: &Race) {
    println!();
    println!("growth of the library's batch");
    let [half, whole] = [ROWS / 2, ROWS].map(plant);
    for (name, make) in LISTS {
        let all = time(race, &whole, &make(&whole, MOST_ITEMS)).ours;
        let fewer_items = time(race, &whole, &make(&whole, MOST_ITEMS / 2)).ours;
        figure(&format!("256 over 128 {name}"), all / fewer_items, GROWTH_BAR);
        let fewer_rows = time(race, &half, &make(&half, MOST_ITEMS)).ours;
        figure(&format!("4,096 over 2,048 rows, 256 {name}"), all / fewer_rows, GROWTH_BAR);
    }
}

/// A batch against the same items as calls of their own, both by the library.
fn gain(race: &Race) {
    println!();
    println!("the library's 256 renames in one call");
    let table = plant(ROWS);
    let items = renames(&table, MOST_ITEMS);
    let at_once = time(race, &table, &items).ours;
    let one_by_one = race.time_edit(&table, |engine, table| {
        let renamed = items.key.iter().zip(&items.name);
        let seen = renamed.map(|(&key, &name)| engine.rename(table, key, name));
        seen.last().expect("the list has items")
    });
    println!("  {at_once:.1} microseconds, in 256 calls {:.1}", one_by_one.ours);
    let a_call = one_by_one.ours / MOST_ITEMS as f64;
    figure("over a call that renames one row", at_once / a_call, GAIN_BAR);
}

/// Times a list of which every item is done. The table is restored outside the timing.
fn time(race: &Race, table: &Columns, items: &Items) -> Times {
    let times = race.time_edit(table, |engine, table| engine.batch(table, items));
    let done = race.plain.batch(&mut table.clone(), items);
    assert_eq!((done.0, done.1), (0, items.code.len()), "all items are done");
    times
}

/// Rows all over the table get another name, in no order.
fn renames(table: &Columns, most: usize) -> Items {
    let rows: Vec<usize> = (0..table.key.len()).collect();
    let mut items = Items::default();
    for row in spread(&rows, most) {
        items.push(RENAME, table.key[row], 9);
    }
    items
}

/// The first rows that have none below them go.
fn deletions(table: &Columns, most: usize) -> Items {
    let mut items = Items::default();
    for row in leaves(table).into_iter().take(most) {
        items.push(DELETE, table.key[row], 0);
    }
    items
}

/// By turns one of the first such rows goes, and one of the others, which are all over the table,
/// gets another name.
fn by_turns(table: &Columns, most: usize) -> Items {
    let leaves = leaves(table);
    let each = (most / 2).min(leaves.len() / 2);
    let (front, others) = leaves.split_at(each);
    let mut items = Items::default();
    for (&deleted, renamed) in front.iter().zip(spread(others, each)) {
        items.push(DELETE, table.key[deleted], 0);
        items.push(RENAME, table.key[renamed], 9);
    }
    items
}

fn leaves(table: &Columns) -> Vec<usize> {
    (0..table.key.len()).filter(|&row| table.size[row] == 0).collect()
}

/// Up to so many of the rows, from all over them and in no order.
fn spread(rows: &[usize], most: usize) -> Vec<usize> {
    let number = rows.len().min(most);
    // An odd step takes each place of a power of two once, and a step of a third leaps about.
    let places = number.next_power_of_two();
    let leaps = (0..places).map(|turn| turn * ((places / 3) | 1) % places);
    leaps.filter(|&place| place < number).map(|place| rows[place * rows.len() / number]).collect()
}
