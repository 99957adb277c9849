//! Pairs that are kept between edits, carried over each.

use crate::boundary;
use crate::{Edited, Pairs, Refusal, Results};

impl Pairs<'_> {
    /// Carries the pairs over an edit, by what it answered: each pair that remains names the same
    /// key as before, and a pair is dropped exactly when its key is gone. Answers the length of the
    /// new list, which the next step takes as it is.
    ///
    /// The new list is written from place 0 on, in the order of the pairs, and equal pairs stay
    /// equal; places beyond it stay as they are.
    ///
    /// ```
    /// use reach::{Pairs, Refusal, Results, TableMut};
    ///
    /// // The small farm, and what two roles hold in it.
    /// let mut farm = TableMut {
    ///     key: &mut [10, 20, 21, 22, 23, 24, 30, 31, 32, 40],
    ///     size: &mut [9, 4, 1, 0, 1, 0, 2, 1, 0, 0],
    ///     level: &mut [0, 1, 2, 3, 2, 3, 1, 2, 3, 1],
    ///     kind: &mut [1, 1, 1, 1, 1, 1, 1, 1, 1, 3],
    ///     name: &mut [1, 2, 3, 4, 3, 4, 2, 3, 4, 0],
    ///     count: 10,
    /// };
    /// let pairs = Pairs { role: &[5, 5, 7], row: &[1, 2, 6] };
    ///
    /// // The blade with the key 21 goes, and with it the pair (5, 2). Key 30 now stands in row 4.
    /// let edited = farm.delete(21)?;
    /// let (mut role, mut row) = ([0; 3], [0; 3]);
    /// let results = Results { role: &mut role, row: &mut row };
    /// assert_eq!(pairs.carry(&edited, results), Ok(2));
    /// assert_eq!((role, row), ([5, 7, 0], [1, 4, 0]));
    /// assert_eq!(farm.key[4], 30);
    ///
    /// // With too little room nothing is written, and the refusal says how much is needed.
    /// let short = Results { role: &mut role[..1], row: &mut row };
    /// assert_eq!(pairs.carry(&edited, short), Err(Refusal::TooManyResults { results: 2 }));
    /// # Ok::<(), Refusal>(())
    /// ```
    ///
    /// # Errors
    ///
    /// In this order: [`Refusal::BadCount`], [`Refusal::BadPairColumns`],
    /// [`Refusal::PairOutOfOrder`], [`Refusal::PairOutsideTable`], [`Refusal::BadMove`] and
    /// [`Refusal::TooManyResults`]. The count that the pairs are held against is the one before the
    /// edit. What an accepted edit answered is never a bad count or a bad move.
    pub fn carry(self, edited: &Edited, results: Results<'_>) -> Result<usize, Refusal> {
        let Edited { first_moved_row, moved, .. } = *edited;
        boundary::carry(self, edited.old_count(), first_moved_row, moved, results)
            .accepted()
            .map(|answer| answer.first)
    }
}

impl Edited {
    /// The count of rows before the edit. Numbers that no edit answers may give none at all, which
    /// the library refuses as it refuses 0.
    fn old_count(&self) -> usize {
        // With so many bits the difference is exact, whatever the two numbers are.
        usize::try_from(self.count as i128 - i128::from(self.moved)).unwrap_or(0)
    }
}
