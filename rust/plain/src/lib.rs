//! The reach engine in plain, unverified Rust with the same contract: what a benchmark of the
//! verified library is held against.
//!
//! Every call with a table checks the whole of it in one pass: a stack of open rows for the sizes,
//! and a hash table in a local array for the keys.

#![forbid(unsafe_code)]

mod answer;
mod axes;
mod batch;
mod carry;
mod check;
mod edit;
mod filter;
mod find;
mod keys;
mod lanes;
mod pairs;
mod row_set;
mod sink;
mod step;
mod table;
mod trees;

pub use answer::{Answer, Found};
pub use batch::{batch, Items};
pub use carry::carry;
pub use edit::{delete, insert, rename, TableMut};
pub use find::find;
pub use pairs::Pairs;
pub use sink::Results;
pub use step::{step, Question};
pub use table::Table;

use keys::{by_rows, Keys};
use table::Rows;

/// The most rows that a table may have in use.
const MOST_ROWS: usize = 4_096;
/// Levels 0 to 63.
const LEVELS: usize = 64;

/// Checks a table: refusals 1 and 2.
pub fn check(table: &Table<'_>) -> Answer {
    let Some(rows) = table.rows_in_use() else {
        return Answer::refused(1, 0);
    };
    by_rows!(rows.count(), check_rows(&rows))
}

fn check_rows<const SLOTS: usize>(rows: &Rows<'_>) -> Answer {
    let mut keys = Keys::<SLOTS>::new();
    match check::first_unsound(rows, &mut keys) {
        None => Answer::default(),
        Some(row) => Answer::refused(2, row),
    }
}
