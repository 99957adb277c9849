//! A set of rows that gives them back in ascending order.

use crate::MOST_ROWS;

const WORD: usize = u64::BITS as usize;

/// A bit for each row, and a bit for each word of them that is not 0.
pub(crate) struct RowSet {
    words: [u64; MOST_ROWS / WORD],
    used: u64,
}

impl RowSet {
    pub fn new() -> RowSet {
        RowSet { words: [0; MOST_ROWS / WORD], used: 0 }
    }

    #[inline(always)]
    pub fn add(&mut self, row: usize) {
        self.words[row / WORD] |= 1 << (row % WORD);
        self.used |= 1 << (row / WORD);
    }

    /// Takes out all rows, the least first.
    #[inline(always)]
    pub fn drain(&mut self, mut take: impl FnMut(usize)) {
        while self.used != 0 {
            let word = self.used.trailing_zeros() as usize;
            let mut bits = std::mem::take(&mut self.words[word]);
            while bits != 0 {
                take(word * WORD + bits.trailing_zeros() as usize);
                bits &= bits - 1;
            }
            self.used &= self.used - 1;
        }
    }
}
