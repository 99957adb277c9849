//! The table as it is lent, and the part of it that is in use.

use crate::MOST_ROWS;
use std::ops::Range;

/// Five lent columns and the count of rows in use.
#[derive(Clone, Copy, Debug)]
pub struct Table<'a> {
    /// Keys.
    pub key: &'a [usize],
    /// Sizes.
    pub size: &'a [usize],
    /// Levels.
    pub level: &'a [usize],
    /// Kinds.
    pub kind: &'a [usize],
    /// Names.
    pub name: &'a [usize],
    /// The count of rows in use.
    pub count: usize,
}

/// The rows in use: five columns that all end where the count says.
#[derive(Clone, Copy)]
pub(crate) struct Rows<'a> {
    pub key: &'a [usize],
    pub size: &'a [usize],
    pub level: &'a [usize],
    pub kind: &'a [usize],
    pub name: &'a [usize],
}

impl<'a> Table<'a> {
    /// The length of the shortest column.
    pub(crate) fn shortest_column(&self) -> usize {
        let columns = [self.key, self.size, self.level, self.kind, self.name];
        columns.iter().map(|column| column.len()).fold(usize::MAX, usize::min)
    }

    /// The rows in use, unless the count is 0, above the limit or above the shortest column.
    pub(crate) fn rows_in_use(&self) -> Option<Rows<'a>> {
        let count = self.count;
        if count == 0 || count > MOST_ROWS || count > self.shortest_column() {
            return None;
        }
        Some(Rows {
            key: &self.key[..count],
            size: &self.size[..count],
            level: &self.level[..count],
            kind: &self.kind[..count],
            name: &self.name[..count],
        })
    }
}

impl Rows<'_> {
    /// How many rows are in use.
    pub fn count(&self) -> usize {
        self.key.len()
    }

    /// The row numbers in document order.
    pub fn numbers(&self) -> Range<usize> {
        0..self.count()
    }
}
