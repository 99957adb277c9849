//! The table as it is lent, and its rows in use.

use crate::MOST_ROWS;

/// Five lent columns and the count of rows in use.
#[derive(Clone, Copy, Debug)]
pub struct Table<'a> {
    /// Keys.
    pub key: &'a [usize],
    /// Sizes.
    pub size: &'a [usize],
    /// Levels.
    pub level: &'a [usize],
    /// Kinds.
    pub kind: &'a [usize],
    /// Names.
    pub name: &'a [usize],
    /// The count of rows in use.
    pub count: usize,
}

/// The rows in use: five columns of one length, at least 1 and at most 4,096.
#[derive(Clone, Copy)]
pub(crate) struct Rows<'a> {
    pub key: &'a [usize],
    pub size: &'a [usize],
    pub level: &'a [usize],
    pub kind: &'a [usize],
    pub name: &'a [usize],
}

impl<'a> Table<'a> {
    /// The rows in use, or nothing where the count is bad.
    pub(crate) fn rows_in_use(&self) -> Option<Rows<'a>> {
        if !(1..=MOST_ROWS).contains(&self.count) {
            return None;
        }
        Some(Rows {
            key: self.key.get(..self.count)?,
            size: self.size.get(..self.count)?,
            level: self.level.get(..self.count)?,
            kind: self.kind.get(..self.count)?,
            name: self.name.get(..self.count)?,
        })
    }
}

impl Table<'_> {
    /// The length of the shortest column.
    pub(crate) fn shortest(&self) -> usize {
        let others = [self.size, self.level, self.kind, self.name];
        others.iter().fold(self.key.len(), |least, column| least.min(column.len()))
    }
}

impl Rows<'_> {
    pub fn count(&self) -> usize {
        self.key.len()
    }
}
