//! Finding a key: the row, its level and its parent's row.

use crate::checks::{GROWTH_BAR, SHAPES};
use crate::race::{Race, Times};
use crate::report::{counted, figure, Group};
use crate::tables::{all_kinds, deep, farms, flat, plant, wide};
use lent::Columns;

/// A find takes at most so many times what plain Rust takes.
const BAR: f64 = 1.2;

const ROWS: usize = 4_096;

pub fn run(race: &Race) {
    let mut group = Group::new("find, microseconds a call");
    for rows in [1, 8, 24, 64, 512] {
        for (name, shape) in SHAPES {
            let times = last(race, &shape(rows));
            group.line_with_bar(&format!("{}, {name}, last row", counted(rows)), times, BAR);
        }
        let times = time(race, &all_kinds(rows), 0);
        group.line_with_bar(&format!("{}, all kinds, missing", counted(rows)), times, BAR);
    }
    // The parent of the last row stands 4,095 rows before it, some rows, one row, 65 rows; a root
    // has none.
    let tables = [
        ("flat", flat(ROWS)),
        ("plant", plant(ROWS)),
        ("63 deep", deep(ROWS)),
        ("63 deep and wide", wide(ROWS)),
        ("all roots", farms(ROWS, 1)),
        ("all kinds", all_kinds(ROWS)),
    ];
    for (name, table) in tables {
        let [first, middle, last] = [0, ROWS / 2, ROWS - 1].map(|row| table.key[row]);
        for (place, key_wanted) in
            [("first row", first), ("middle", middle), ("last row", last), ("missing", 0)]
        {
            let times = time(race, &table, key_wanted);
            group.line_with_bar(&format!("4,096 rows, {name}, {place}"), times, BAR);
        }
    }
    group.mean();
    println!();
    println!("growth of the library's find of the last row");
    for (name, shape) in SHAPES {
        let [half, whole] = [ROWS / 2, ROWS].map(|rows| last(race, &shape(rows)).ours);
        figure(&format!("4,096 over 2,048 rows, {name}"), whole / half, GROWTH_BAR);
    }
}

/// Finds the key of the last row.
fn last(race: &Race, table: &Columns) -> Times {
    time(race, table, table.key[table.key.len() - 1])
}

fn time(race: &Race, table: &Columns, key_wanted: usize) -> Times {
    race.time(|engine| engine.find(table, key_wanted))
}
