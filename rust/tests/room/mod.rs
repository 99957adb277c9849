//! The small farm with room for one more row, and a piece that just fits.

use reach::{farm, Table, TableMut};

/// The farm in columns of eleven rows.
pub struct Farm {
    pub columns: [[usize; 11]; 5],
}

impl Farm {
    pub fn new() -> Farm {
        let columns = [farm::KEY, farm::SIZE, farm::LEVEL, farm::KIND, farm::NAME];
        let longer =
            |column: [usize; 10]| std::array::from_fn(|row| *column.get(row).unwrap_or(&77));
        Farm { columns: columns.map(longer) }
    }

    pub fn lent(&mut self) -> TableMut<'_> {
        let [key, size, level, kind, name] = &mut self.columns;
        TableMut { key, size, level, kind, name, count: 10 }
    }
}

pub const SETPOINT: Table<'static> =
    Table { key: &[50], size: &[0], level: &[0], kind: &[1], name: &[4], count: 1 };
