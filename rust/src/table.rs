//! A node table in five lent columns: checking it, and finding where a row stands in it.

use crate::boundary::{self, Found};
use crate::Refusal;

/// A node table that is lent to be read: five columns, and how many rows are in use.
///
/// Row numbers start from 0 and follow document order. A longer column has spare rows, which are
/// never read. The table is sound when each row in use is:
///
/// - level: how deep the row stands. 0 in row 0, in a later row from 0 to one more than in the row
///   before, at most 63. A row of level 0 is a root: it starts a tree, which goes on to the next root.
/// - size: how many descendants it has, which are the rows in use directly after it, without a
///   break, whose level is greater than its own.
/// - kind: 0 to 4, as [`codes`](crate::codes) names them. A document stands at level 0 only; texts,
///   comments and processing instructions have size 0.
/// - name: not 0 for an element or a processing instruction, otherwise 0.
/// - key: not 0, and unlike the key of every earlier row, whatever the tree.
///
/// What a [step](Table::step) keeps are the distinct pairs that remain when redundant ones are
/// dropped, whatever the test: on axes 3 and 4 a pair is redundant if the same role has a pair on an
/// ancestor of its row, on 6 and 7 if on a descendant; on 8 and 9 one pair remains for each role and
/// tree that holds one of its pairs; on the other axes none is redundant.
#[derive(Clone, Copy, Debug, PartialEq, Eq)]
pub struct Table<'a> {
    /// Each row's key.
    pub key: &'a [usize],
    /// How many descendants each row has.
    pub size: &'a [usize],
    /// How deep each row stands.
    pub level: &'a [usize],
    /// What each row is: [`KIND_DOCUMENT`](crate::codes::KIND_DOCUMENT) and the like.
    pub kind: &'a [usize],
    /// The name of an element or a processing instruction.
    pub name: &'a [usize],
    /// How many rows are in use: 1 to 4,096, and at most as many as the shortest column has.
    pub count: usize,
}

/// Where a row stands: what finding its key answers.
#[derive(Clone, Copy, Debug, PartialEq, Eq)]
#[non_exhaustive]
pub struct Located {
    /// The row of the key.
    pub row: usize,
    /// Its level: how deep it stands.
    pub level: usize,
    /// Its parent's row, which is the nearest earlier row whose level is one less. A root, which is
    /// a row of level 0, has none.
    pub parent: Option<usize>,
}

impl Table<'_> {
    /// Checks that the table is sound. Every other call that takes a table does the same first.
    ///
    /// ```
    /// use reach::{farm, Refusal, Table};
    ///
    /// assert_eq!(farm::table().check(), Ok(()));
    ///
    /// let mut size = farm::SIZE;
    /// size[6] = 3;
    /// let damaged = Table { size: &size, ..farm::table() };
    /// assert_eq!(damaged.check(), Err(Refusal::UnsoundRow { row: 6 }));
    /// ```
    ///
    /// # Errors
    ///
    /// [`Refusal::BadCount`] and [`Refusal::UnsoundRow`].
    pub fn check(self) -> Result<(), Refusal> {
        boundary::check(self).accepted().map(|_| ())
    }

    /// Finds the row of a key, with its level and its parent's row.
    ///
    /// ```
    /// use reach::{farm, Refusal};
    ///
    /// // A blade, and in the same call the turbine that it stands under.
    /// let farm = farm::table();
    /// let blade = farm.find(31)?;
    /// assert_eq!((blade.row, blade.level, blade.parent), (7, 2, Some(6)));
    /// assert_eq!(farm.key[6], 30);
    ///
    /// // The farm itself is a root and stands under nothing.
    /// let root = farm.find(10)?;
    /// assert_eq!((root.row, root.level, root.parent), (0, 0, None));
    ///
    /// assert_eq!(farm.find(99), Err(Refusal::UnknownKey));
    /// # Ok::<(), Refusal>(())
    /// ```
    ///
    /// # Errors
    ///
    /// [`Refusal::BadCount`], [`Refusal::UnsoundRow`] and [`Refusal::UnknownKey`].
    pub fn find(self, key_wanted: usize) -> Result<Located, Refusal> {
        let Found { row, level, parent, .. } = boundary::find(self, key_wanted).accepted()?;
        // A root's parent is -1, which is no row.
        Ok(Located { row, level, parent: usize::try_from(parent).ok() })
    }
}
