//! Safe Rust over the reach engine, a verified library that works on lent columns: it checks a
//! node table, finds by its key where a row stands, answers one location step for many roles at
//! once, edits the table, by a list of changes too, and carries the roles' rows over an edit.
//!
//! A table is five columns of numbers, one row for each node in document order, and a count of
//! the rows in use. Nothing is copied: the library reads and writes the slices that are lent to
//! it. Whatever the numbers are, a call either does all of what it says or is refused with a
//! [`Refusal`] and leaves every column as it was; in a [batch](TableMut::batch) this holds for each
//! item. A call needs less than 128 KB of stack. All rules stand in `docs/RULES.md` at the root of
//! the repository; what a sound table is, [`Table`] says.
//!
//! ```
//! use reach::{Refusal, Table};
//!
//! // A turbine (name 2) with two blades (name 3).
//! let table = Table {
//!     key: &[20, 21, 23],
//!     size: &[2, 0, 0],
//!     level: &[0, 1, 1],
//!     kind: &[1, 1, 1],
//!     name: &[2, 3, 3],
//!     count: 3,
//! };
//! assert_eq!(table.check(), Ok(()));
//! // The second blade stands in row 2 at level 1, under the turbine in row 0.
//! let blade = table.find(23)?;
//! assert_eq!((blade.row, blade.level, blade.parent), (2, 1, Some(0)));
//! assert_eq!(table.find(24), Err(Refusal::UnknownKey));
//! # Ok::<(), Refusal>(())
//! ```
//!
//! # Several farms
//!
//! Each row of level 0 starts a tree, so one table holds one farm or several: one call answers for
//! all roles of all farms, a key is unlike every other key of any of them, and no step leaves the
//! farm that it starts in. A farm goes with its root, and the grants are carried as over any edit.
//!
//! ```
//! use reach::{Axis, Pairs, Refusal, Results, TableMut, Test};
//!
//! // Two farms (name 1) of two turbines each (name 2).
//! let mut farms = TableMut {
//!     key: &mut [10, 20, 30, 50, 60, 70],
//!     size: &mut [2, 0, 0, 2, 0, 0],
//!     level: &mut [0, 1, 1, 0, 1, 1],
//!     kind: &mut [1; 6],
//!     name: &mut [1, 2, 2, 1, 2, 2],
//!     count: 6,
//! };
//! // Role 5 holds the first turbine of both.
//! let grants = Pairs { role: &[5, 5], row: &[1, 4] };
//! let (mut role, mut row) = ([0; 4], [0; 4]);
//!
//! // What comes after them? In each farm its second turbine, and both grants count.
//! let results = Results { role: &mut role, row: &mut row };
//! let stepped = farms.as_table().step(grants, Axis::Following, Test::AnyNode, results)?;
//! assert_eq!((stepped.results, stepped.kept), (2, 2));
//! assert_eq!(row[..2], [2, 5]);
//!
//! // The first farm goes, and the grant on it. The other one now names row 1, still key 60.
//! let deleted = farms.delete(10)?;
//! let results = Results { role: &mut role, row: &mut row };
//! assert_eq!(grants.carry(&deleted, results), Ok(1));
//! assert_eq!((role[0], row[0], farms.key[1]), (5, 1, 60));
//!
//! // The last farm stays.
//! assert_eq!(farms.delete(50), Err(Refusal::DeletesRoot));
//! # Ok::<(), Refusal>(())
//! ```

mod batch;
pub mod boundary;
mod carry;
pub mod codes;
mod edit;
pub mod farm;
mod refusal;
mod step;
mod table;

pub use batch::{Batched, Items};
pub use edit::{Edited, TableMut};
pub use refusal::Refusal;
pub use step::{Axis, Pairs, Results, Stepped, Test};
pub use table::{Located, Table};
