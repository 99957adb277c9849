//! The second program: what the reach engine has to answer, worked out by brute force from the
//! words of its rules.
//!
//! It links the rows to trees of nodes: each has its parent, for which all earlier rows are looked
//! at, and the list of its children. A step walks along these links from every context, as XPath's
//! data model tells it; an edit changes them, as XQuery Update tells it, and a batch changes them
//! item by item. Pairs are carried by looking their rows up in a list of all rows. It shares no
//! method with the library it is compared with, and prefers what can be read at once to what is
//! fast.

#![forbid(unsafe_code)]

mod answer;
mod axes;
mod batch;
mod carry;
mod edit;
mod forest;
mod kept;
mod pairs;
mod sound;
mod step;
mod table;

pub use answer::{Answer, Found};
pub use batch::{batch, Items};
pub use carry::carry;
pub use edit::{delete, insert, rename, TableMut};
pub use pairs::{Pairs, Results};
pub use step::{step, Question};
pub use table::Table;

use answer::Refused;
use forest::parent_row;
use table::Rows;

/// The most rows that a table may have in use.
pub const MOST_ROWS: usize = 4_096;

/// Checks a table: refusals 1 and 2.
pub fn check(table: &Table<'_>) -> Answer {
    match sound_rows(table) {
        Ok(_) => Answer::default(),
        Err(refused) => refused.answer(),
    }
}

/// Finds the row of a key, with its level and its parent's row: refusals 1, 2 and 9.
pub fn find(table: &Table<'_>, key_wanted: usize) -> Found {
    found(table, key_wanted).unwrap_or_else(Refused::found)
}

fn found(table: &Table<'_>, key_wanted: usize) -> Result<Found, Refused> {
    let rows = sound_rows(table)?;
    let row = row_of_key(&rows, key_wanted)?;
    let parent = parent_row(&rows, row).map_or(-1, |parent| parent as i64);
    Ok(Found { row, level: rows.level[row], parent, ..Found::default() })
}

/// The rows in use, where the table is sound.
fn sound_rows<'a>(table: &Table<'a>) -> Result<Rows<'a>, Refused> {
    let rows = table.rows_in_use().ok_or(Refused { number: 1, place: 0 })?;
    match sound::least_unsound_row(&rows) {
        None => Ok(rows),
        Some(row) => Err(Refused { number: 2, place: row }),
    }
}

/// The row in use that has the key.
fn row_of_key(rows: &Rows<'_>, key_wanted: usize) -> Result<usize, Refused> {
    rows.numbers().find(|&row| rows.key[row] == key_wanted).ok_or(Refused { number: 9, place: 0 })
}
