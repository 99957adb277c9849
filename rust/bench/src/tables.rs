//! The tables that calls are timed on.

use lent::{scattered_key, sizes, Columns};

/// Every row a child of row 0.
pub fn flat(rows: usize) -> Columns {
    from_levels((0..rows).map(|row| row.min(1)).collect())
}

/// Chains that go down to level 63, one after the other.
pub fn deep(rows: usize) -> Columns {
    from_levels((0..rows).map(|row| if row == 0 { 0 } else { (row - 1) % 63 + 1 }).collect())
}

/// At each level 64 rows, and then the one that the next level stands below: as deep as `deep`, and
/// from one ancestor to the next it is 65 rows.
pub fn wide(rows: usize) -> Columns {
    from_levels((0..rows).map(|row| row.div_ceil(65)).collect())
}

/// Elements at these levels, named by their level.
fn from_levels(level: Vec<usize>) -> Columns {
    let rows = level.len();
    Columns {
        key: (0..rows).map(scattered_key).collect(),
        size: sizes(&level),
        kind: vec![1; rows],
        name: level.iter().map(|level| level + 1).collect(),
        level,
    }
}

/// A plant: turbines of 64 rows, each with three blades, each with twenty setpoints. Names are
/// 1 for the plant, 2 for a turbine, 3 for a blade and 4 for a setpoint.
pub fn plant(rows: usize) -> Columns {
    farms(1, rows)
}

/// So many plants in one table, each of so many rows.
pub fn farms(farms: usize, rows: usize) -> Columns {
    from_levels((0..farms * rows).map(|row| plant_level(row % rows)).collect())
}

/// A plant in a document, with rows of all kinds: of the rows without children a third, here and
/// there, are texts, comments and processing instructions.
pub fn all_kinds(rows: usize) -> Columns {
    let mut table = plant(rows);
    for row in 1..rows {
        let scattered = scattered_key(row);
        if table.size[row] == 0 && scattered % 3 == 0 {
            table.kind[row] = 2 + scattered / 3 % 3;
            table.name[row] = if table.kind[row] == 4 { 5 } else { 0 };
        }
    }
    (table.kind[0], table.name[0]) = (0, 0);
    table
}

fn plant_level(row: usize) -> usize {
    match row.checked_sub(1).map(|row| row % 64) {
        None => 0,
        Some(0) => 1,
        Some(in_turbine) if in_turbine % 21 == 1 => 2,
        Some(_) => 3,
    }
}

/// The table with spare rows, so that its columns have the given length.
pub fn with_room(mut table: Columns, length: usize) -> Columns {
    table.each_mut().into_iter().for_each(|column| column.resize(length, 0));
    table
}
