//! Which row has a key: open addressing in a local array, at most a quarter full.

use crate::find::place_of;

/// The rows entered so far, each at the first free slot from its key's own one on. A slot holds
/// one more than the row, so that 0 is a free slot.
pub(crate) struct Keys<const SLOTS: usize> {
    slots: [u16; SLOTS],
}

/// 2^64 divided by the golden ratio: neighbouring keys land far apart.
const SPREAD: u64 = 0x9E37_79B9_7F4A_7C15;

impl<const SLOTS: usize> Keys<SLOTS> {
    pub fn new() -> Self {
        Keys { slots: [0; SLOTS] }
    }

    /// Enters a row, unless an earlier one has its key.
    #[inline(always)]
    pub fn enter(&mut self, key: &[usize], row: usize) -> bool {
        let mut slot = Self::own_slot(key[row]);
        loop {
            match self.slots[slot] {
                0 => {
                    self.slots[slot] = row as u16 + 1;
                    return true;
                }
                entry if key[usize::from(entry) - 1] == key[row] => return false,
                _ => slot = (slot + 1) % SLOTS,
            }
        }
    }

    /// The row that has the key.
    #[inline]
    pub fn row_of(&self, key: &[usize], key_wanted: usize) -> Option<usize> {
        let mut slot = Self::own_slot(key_wanted);
        loop {
            match self.slots[slot] {
                0 => return None,
                entry if key[usize::from(entry) - 1] == key_wanted => {
                    return Some(usize::from(entry) - 1)
                }
                _ => slot = (slot + 1) % SLOTS,
            }
        }
    }

    /// The same after so many of the rows entered went: what is left stands where it stood, or at
    /// most so many rows before. `key` has the rows in use now.
    #[inline]
    pub fn row_since(&self, key: &[usize], key_wanted: usize, gone: usize) -> Option<usize> {
        let mut slot = Self::own_slot(key_wanted);
        while let Some(stood) = usize::from(self.slots[slot]).checked_sub(1) {
            let start = stood.saturating_sub(gone);
            let may_be = &key[start..key.len().min(stood + 1)];
            if let Some(place) = place_of(may_be, key_wanted) {
                return Some(start + place);
            }
            slot = (slot + 1) % SLOTS;
        }
        None
    }

    #[inline(always)]
    fn own_slot(key: usize) -> usize {
        ((key as u64).wrapping_mul(SPREAD) >> (64 - SLOTS.trailing_zeros())) as usize % SLOTS
    }
}

/// Calls a function with as many slots as its rows need: a small table has no large array to
/// clear.
macro_rules! by_rows {
    ($rows:expr, $function:ident($($argument:expr),*)) => {
        match $rows {
            0..=64 => $function::<256>($($argument),*),
            65..=512 => $function::<2048>($($argument),*),
            _ => $function::<16384>($($argument),*),
        }
    };
}
pub(crate) use by_rows;
