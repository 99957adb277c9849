//! Lists of pairs: those that a call is given, and those that it writes.

use crate::answer::Refused;
use crate::MOST_ROWS;

/// The most pairs that a call may have.
const MOST_PAIRS: usize = MOST_ROWS;

/// Two columns that give role and row of each pair.
#[derive(Clone, Copy, Debug)]
pub struct Pairs<'a> {
    /// Roles.
    pub role: &'a [usize],
    /// Rows.
    pub row: &'a [usize],
}

/// The two columns that results are written to.
#[derive(Debug)]
pub struct Results<'a> {
    /// Roles.
    pub role: &'a mut [usize],
    /// Rows.
    pub row: &'a mut [usize],
}

impl Pairs<'_> {
    /// The pairs in their order, equal ones as often as they come, unless refusal 3, 4 or 5 applies.
    pub(crate) fn good(&self, count: usize) -> Result<Vec<(usize, usize)>, Refused> {
        if self.role.len() != self.row.len() || self.role.len() > MOST_PAIRS {
            return Err(Refused { number: 3, place: 0 });
        }
        let list: Vec<(usize, usize)> =
            self.role.iter().copied().zip(self.row.iter().copied()).collect();
        if let Some(place) = (1..list.len()).find(|&place| list[place] < list[place - 1]) {
            return Err(Refused { number: 4, place });
        }
        if let Some(place) = (0..list.len()).find(|&place| list[place].1 >= count) {
            return Err(Refused { number: 5, place });
        }
        Ok(list)
    }
}

impl Results<'_> {
    /// How many pairs there is room for: as many as the shorter column holds.
    pub(crate) fn room(&self) -> usize {
        self.role.len().min(self.row.len())
    }

    /// Writes pairs that there is room for; places beyond them are left alone.
    pub(crate) fn write(&mut self, list: &[(usize, usize)]) {
        for (place, &(role, row)) in list.iter().enumerate() {
            self.role[place] = role;
            self.row[place] = row;
        }
    }
}
