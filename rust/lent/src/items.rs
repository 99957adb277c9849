//! The three columns of a batch.

/// The codes of an item: it deletes, it renames.
pub const DELETE: usize = 1;
pub const RENAME: usize = 2;
/// The most items that a list may have.
pub const MOST_ITEMS: usize = 256;

/// The three columns of a list of items, as they are lent.
#[derive(Clone, Debug, Default, PartialEq, Eq)]
pub struct Items {
    /// Codes: 1 deletes, 2 renames.
    pub code: Vec<usize>,
    /// Keys.
    pub key: Vec<usize>,
    /// Names.
    pub name: Vec<usize>,
}

impl Items {
    /// The columns one after the other: code, key, name.
    pub fn each(&self) -> [&Vec<usize>; 3] {
        [&self.code, &self.key, &self.name]
    }

    /// The same, to be changed.
    pub fn each_mut(&mut self) -> [&mut Vec<usize>; 3] {
        [&mut self.code, &mut self.key, &mut self.name]
    }

    /// Adds an item behind the others.
    pub fn push(&mut self, code: usize, key: usize, name: usize) {
        self.each_mut()
            .into_iter()
            .zip([code, key, name])
            .for_each(|(column, own)| column.push(own));
    }
}
