//! The small farm: the table of ten rows that the examples use. A farm (name 1) has two turbines
//! (2) with blades (3) that each have a setpoint (4), and at its end a comment.

use crate::codes::{KIND_COMMENT as C, KIND_ELEMENT as E};
use crate::Table;

/// The key of each row.
pub const KEY: [usize; 10] = [10, 20, 21, 22, 23, 24, 30, 31, 32, 40];
/// How many descendants each row has.
pub const SIZE: [usize; 10] = [9, 4, 1, 0, 1, 0, 2, 1, 0, 0];
/// How deep each row stands.
pub const LEVEL: [usize; 10] = [0, 1, 2, 3, 2, 3, 1, 2, 3, 1];
/// Nine elements and a comment.
pub const KIND: [usize; 10] = [E, E, E, E, E, E, E, E, E, C];
/// The name of each row; the comment has none.
pub const NAME: [usize; 10] = [1, 2, 3, 4, 3, 4, 2, 3, 4, 0];

/// The farm as a table with all its rows in use and none to spare.
pub fn table() -> Table<'static> {
    Table { key: &KEY, size: &SIZE, level: &LEVEL, kind: &KIND, name: &NAME, count: KEY.len() }
}
