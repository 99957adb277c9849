//! The five columns of a table.

use std::ops::Range;

/// The five columns of a table, as they are lent. The count of rows in use is lent beside them,
/// since any count may be posed with any columns.
#[derive(Clone, Debug, Default, PartialEq, Eq)]
pub struct Columns {
    /// Keys.
    pub key: Vec<usize>,
    /// Sizes.
    pub size: Vec<usize>,
    /// Levels.
    pub level: Vec<usize>,
    /// Kinds.
    pub kind: Vec<usize>,
    /// Names.
    pub name: Vec<usize>,
}

impl Columns {
    /// The columns one after the other: key, size, level, kind, name.
    pub fn each(&self) -> [&Vec<usize>; 5] {
        [&self.key, &self.size, &self.level, &self.kind, &self.name]
    }

    /// The same, to be changed.
    pub fn each_mut(&mut self) -> [&mut Vec<usize>; 5] {
        [&mut self.key, &mut self.size, &mut self.level, &mut self.kind, &mut self.name]
    }

    /// The length of the shortest column.
    pub fn shortest(&self) -> usize {
        self.each().iter().map(|column| column.len()).fold(usize::MAX, usize::min)
    }

    /// These rows alone.
    pub fn part(&self, rows: Range<usize>) -> Columns {
        let [key, size, level, kind, name] =
            self.each().map(|column| column[rows.clone()].to_vec());
        Columns { key, size, level, kind, name }
    }

    /// Adds the rows of other columns behind the own ones.
    pub fn append(&mut self, other: &Columns) {
        self.each_mut().into_iter().zip(other.each()).for_each(|(own, other)| own.extend(other));
    }
}

/// The sizes that belong to the levels.
pub fn sizes(level: &[usize]) -> Vec<usize> {
    let run = |row: usize| level[row + 1..].iter().take_while(move |&&other| other > level[row]);
    (0..level.len()).map(|row| run(row).count()).collect()
}

#[cfg(test)]
mod tests {
    use super::sizes;

    #[test]
    fn a_size_counts_the_deeper_rows_up_to_the_next_that_is_not() {
        assert_eq!(sizes(&[0, 1, 2, 3, 2, 1, 0, 1]), [5, 3, 1, 0, 0, 0, 1, 0]);
    }
}
