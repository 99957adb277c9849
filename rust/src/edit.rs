//! Edits by key: insertion, deletion, rename.

use crate::boundary::{self, Answer};
use crate::{Refusal, Table};

/// A node table that is lent to be changed, with the columns of a [`Table`]. Spare rows, beyond the
/// count, are the room that an insertion needs.
#[derive(Debug, PartialEq, Eq)]
pub struct TableMut<'a> {
    /// Each row's key.
    pub key: &'a mut [usize],
    /// How many descendants each row has.
    pub size: &'a mut [usize],
    /// How deep each row stands.
    pub level: &'a mut [usize],
    /// What each row is.
    pub kind: &'a mut [usize],
    /// The name of an element or a processing instruction.
    pub name: &'a mut [usize],
    /// How many rows are in use. An accepted edit sets it to the new count, and so does a batch.
    pub count: usize,
}

/// What an accepted edit answers. It is all that is needed to carry pairs over the edit:
/// [`Pairs::carry`](crate::Pairs::carry).
#[derive(Clone, Copy, Debug, PartialEq, Eq)]
#[non_exhaustive]
pub struct Edited {
    /// The new count of rows in use.
    pub count: usize,
    /// The first row that moved, in old numbering; the old count where none did.
    pub first_moved_row: usize,
    /// By how many rows it moved, negative for a deletion, 0 for a rename. An edit at the very end,
    /// where no row moves, answers it too.
    pub moved: i64,
}

impl Edited {
    /// What an edit answered, from numbers that were kept since.
    pub fn new(count: usize, first_moved_row: usize, moved: i64) -> Edited {
        Edited { count, first_moved_row, moved }
    }
}

impl TableMut<'_> {
    /// The same table, lent to be read.
    pub fn as_table(&self) -> Table<'_> {
        Table {
            key: self.key,
            size: self.size,
            level: self.level,
            kind: self.kind,
            name: self.name,
            count: self.count,
        }
    }

    /// Makes a piece, which is a table of its own with one tree, the last child of the row with the
    /// key `parent_key`. Levels of the piece rise to their new depth, sizes of the parent and its
    /// ancestors by the piece's count, and later rows move down.
    ///
    /// What is inserted stands below a row, so this adds no root. A further farm comes in when its
    /// rows are written behind the last one and the count is raised; the next call checks them.
    ///
    /// ```
    /// use reach::{Edited, Table, TableMut};
    ///
    /// // A turbine with two blades and a spare row in each column.
    /// let mut table = TableMut {
    ///     key: &mut [20, 21, 23, 0],
    ///     size: &mut [2, 0, 0, 0],
    ///     level: &mut [0, 1, 1, 0],
    ///     kind: &mut [1, 1, 1, 0],
    ///     name: &mut [2, 3, 3, 0],
    ///     count: 3,
    /// };
    /// // A setpoint for the first blade.
    /// let piece =
    ///     Table { key: &[22], size: &[0], level: &[0], kind: &[1], name: &[4], count: 1 };
    /// let edited = table.insert(21, piece);
    /// assert_eq!(edited, Ok(Edited::new(4, 2, 1)));
    /// assert_eq!(table.key, [20, 21, 22, 23]);
    /// assert_eq!(table.size, [3, 1, 0, 0]);
    /// assert_eq!(table.level, [0, 1, 2, 1]);
    /// ```
    ///
    /// # Errors
    ///
    /// [`Refusal::BadCount`], [`Refusal::UnsoundRow`], and [`Refusal::UnknownKey`] to
    /// [`Refusal::NoRoom`], numbers 9 to 14.
    pub fn insert(&mut self, parent_key: usize, piece: Table<'_>) -> Result<Edited, Refusal> {
        let answer = boundary::insert(self, parent_key, piece);
        self.edited(answer)
    }

    /// Deletes the row with the key and its descendants; later rows close up, and the rows
    /// that are freed at the end are zero. With its root a whole farm goes, but not the only one.
    ///
    /// ```
    /// use reach::{Edited, Refusal, TableMut};
    ///
    /// let mut table = TableMut {
    ///     key: &mut [20, 21, 22, 23],
    ///     size: &mut [3, 1, 0, 0],
    ///     level: &mut [0, 1, 2, 1],
    ///     kind: &mut [1, 1, 1, 1],
    ///     name: &mut [2, 3, 4, 3],
    ///     count: 4,
    /// };
    /// assert_eq!(table.delete(21), Ok(Edited::new(2, 3, -2)));
    /// assert_eq!(table.key, [20, 23, 0, 0]);
    /// assert_eq!(table.size, [1, 0, 0, 0]);
    /// // Key 20 is the only root.
    /// assert_eq!(table.delete(20), Err(Refusal::DeletesRoot));
    /// ```
    ///
    /// # Errors
    ///
    /// [`Refusal::BadCount`], [`Refusal::UnsoundRow`], [`Refusal::UnknownKey`] and
    /// [`Refusal::DeletesRoot`].
    pub fn delete(&mut self, key_wanted: usize) -> Result<Edited, Refusal> {
        let answer = boundary::delete(self, key_wanted);
        self.edited(answer)
    }

    /// Gives the row with the key another name.
    ///
    /// ```
    /// use reach::{Refusal, TableMut};
    ///
    /// let mut table = TableMut {
    ///     key: &mut [20, 40],
    ///     size: &mut [1, 0],
    ///     level: &mut [0, 1],
    ///     kind: &mut [1, 3],
    ///     name: &mut [2, 0],
    ///     count: 2,
    /// };
    /// assert!(table.rename(20, 7).is_ok());
    /// assert_eq!(table.name, [7, 0]);
    /// // A comment has no name.
    /// assert_eq!(table.rename(40, 7), Err(Refusal::BadRename { row: 1 }));
    /// ```
    ///
    /// # Errors
    ///
    /// [`Refusal::BadCount`], [`Refusal::UnsoundRow`], [`Refusal::UnknownKey`] and
    /// [`Refusal::BadRename`].
    pub fn rename(&mut self, key_wanted: usize, new_name: usize) -> Result<Edited, Refusal> {
        let answer = boundary::rename(self, key_wanted, new_name);
        self.edited(answer)
    }

    /// Takes over the new count.
    fn edited(&mut self, answer: Answer) -> Result<Edited, Refusal> {
        let Answer { first, second, moved, .. } = answer.accepted()?;
        self.count = first;
        Ok(Edited::new(first, second, moved))
    }
}
