//! Edits of a plant of up to 4,096 rows, of nine farms in one table, and of tables with a long way up
//! from the row to its root.

use crate::race::{Race, Times};
use crate::report::Group;
use crate::tables::{deep, farms, flat, plant, wide, with_room};
use lent::{scattered_key, Columns};

/// The geometric mean of the edits of a group against plain Rust with memmove, and the worst.
const MEAN_BAR: f64 = 1.3;
const WORST_BAR: f64 = 2.5;
/// The deletion of a farm takes at most so many times what plain Rust takes.
const FARM_BAR: f64 = 1.3;

const ROWS: usize = 4_096;
/// A blade of the first turbine: what is put under it goes near the front.
const FRONT: usize = 2;
/// The plant itself: what is put under it goes to the end.
const END: usize = 0;

pub fn run(race: &Race) {
    plants(race);
    ways_up(race);
}

fn plants(race: &Race) {
    let mut group = Group::new("edit, microseconds a call");
    for rows in [1, 500] {
        let (table, piece) = (plant(ROWS - rows), piece(rows));
        let places = [("near the front", FRONT), ("at the end", END)];
        for (place, parent) in places {
            let times = insertion(race, &table, parent, &piece);
            group.line(&format!("insert {rows} rows {place}"), times);
        }
        for (place, parent) in places {
            let times = deletion(race, &table, parent, &piece);
            group.line(&format!("delete {rows} rows {place}"), times);
        }
    }
    group.line("rename", renaming(race, &plant(ROWS), ROWS / 2));
    let nine = farms(9, 455);
    for (which, farm) in [("first", 0), ("last", 8)] {
        let root = nine.key[farm * 455];
        let times = race.time_edit(&nine, |engine, table| engine.delete(table, root));
        group.line_with_bar(&format!("delete the {which} of nine farms"), times, FARM_BAR);
    }
    group.mean_and_worst(MEAN_BAR, WORST_BAR);
}

/// One row comes in or goes, and the sizes above it change: past all rows of a flat table, through 63
/// levels, and at each of these levels past 64 siblings. A rename looks for the parent too.
fn ways_up(race: &Race) {
    let mut group = Group::new("edit of one row, with a long way up");
    let (count, piece) = (ROWS - 1, piece(1));
    let (middle, last) = (count / 2, count - 1);
    let tables = [
        ("flat", flat(count), last),
        ("63 deep", deep(count), last),
        // What stands in the last row is too deep to have a child.
        ("63 deep and wide", wide(count), 62 * 65),
    ];
    for (name, table, above_end) in tables {
        for (place, parent) in [("in the middle", middle), ("at the end", above_end)] {
            let times = insertion(race, &table, parent, &piece);
            group.line(&format!("insert {place}, {name}"), times);
            let times = deletion(race, &table, parent, &piece);
            group.line(&format!("delete {place}, {name}"), times);
        }
        let times = renaming(race, &table, last);
        group.line(&format!("rename at the end, {name}"), times);
    }
    group.mean_and_worst(MEAN_BAR, WORST_BAR);
}

/// The row gets another name.
fn renaming(race: &Race, table: &Columns, row: usize) -> Times {
    race.time_edit(table, |engine, edited| engine.rename(edited, table.key[row], 9))
}

/// The piece comes in under the parent.
fn insertion(race: &Race, table: &Columns, parent: usize, piece: &Columns) -> Times {
    let (count, parent_key) = (table.key.len(), table.key[parent]);
    let start = with_room(table.clone(), count + piece.key.len());
    race.time_edit(&start, |engine, table| engine.insert(table, count, parent_key, piece))
}

/// The piece, which stands under the parent, goes.
fn deletion(race: &Race, table: &Columns, parent: usize, piece: &Columns) -> Times {
    let full = with_piece(table, parent, piece);
    race.time_edit(&full, |engine, table| engine.delete(table, piece.key[0]))
}

/// A part of a plant, with keys of its own.
fn piece(rows: usize) -> Columns {
    let mut piece = plant(rows);
    piece.key = (0..rows).map(|row| scattered_key(ROWS + row)).collect();
    piece
}

/// The table with the piece under the parent: what a deletion starts from.
fn with_piece(table: &Columns, parent: usize, piece: &Columns) -> Columns {
    let gap = parent + table.size[parent] + 1;
    let mut full = table.part(0..gap);
    full.append(piece);
    full.append(&table.part(gap..table.key.len()));
    let rows = piece.key.len();
    full.level[gap..gap + rows].iter_mut().for_each(|own| *own += table.level[parent] + 1);
    for (row, size) in full.size[..=parent].iter_mut().enumerate() {
        // The parent and its ancestors are the rows that come to the gap.
        if row + *size >= parent {
            *size += rows;
        }
    }
    full
}
