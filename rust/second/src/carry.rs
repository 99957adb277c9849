//! Pairs carried over an edit: the old rows are written down in a list, the list is changed as the
//! edit changed the table, and each pair's row is looked up in what is left.

use crate::answer::{Answer, Refused};
use crate::pairs::{Pairs, Results};
use crate::MOST_ROWS;
use std::iter::repeat_n;

/// What an edit of a table with `old_count` rows answered: its first moved row, in old numbering,
/// and by how many rows it moved.
struct Edit {
    old_count: usize,
    first: usize,
    moved: i64,
}

/// Carries pairs over an edit: refusals 1, 3, 4, 5, 17 and 8, in this order. The new list is
/// written only where the call is accepted.
pub fn carry(
    pairs: &Pairs<'_>,
    old_count: usize,
    first: usize,
    moved: i64,
    results: &mut Results<'_>,
) -> Answer {
    match new_list(pairs, &Edit { old_count, first, moved }, results.room()) {
        Ok(list) => {
            results.write(&list);
            Answer { first: list.len(), ..Answer::default() }
        }
        Err(refused) => refused.answer(),
    }
}

fn new_list(pairs: &Pairs<'_>, edit: &Edit, room: usize) -> Result<Vec<(usize, usize)>, Refused> {
    if edit.old_count == 0 || edit.old_count > MOST_ROWS {
        return Err(Refused { number: 1, place: 0 });
    }
    let list = pairs.good(edit.old_count)?;
    if !edit.is_possible() {
        return Err(Refused { number: 17, place: 0 });
    }
    let rows = edit.rows_afterwards();
    let new_row = |row: usize| rows.iter().position(|&old_row| old_row == Some(row));
    let list: Vec<(usize, usize)> =
        list.into_iter().filter_map(|(role, row)| Some((role, new_row(row)?))).collect();
    if list.len() > room {
        return Err(Refused { number: 8, place: list.len() });
    }
    Ok(list)
}

impl Edit {
    /// The first moved row is neither 0 nor above the old count, does not fall below 0 once the
    /// move is added, and the new count lies within 1 to 4,096. With so many bits no sum is too
    /// large.
    fn is_possible(&self) -> bool {
        let [old_count, first] = [self.old_count, self.first].map(|number| number as i128);
        let moved = i128::from(self.moved);
        first != 0
            && first <= old_count
            && first + moved >= 0
            && (1..=MOST_ROWS as i128).contains(&(old_count + moved))
    }

    /// For each row of the new table, which row of the old one it was; a newcomer was none.
    fn rows_afterwards(&self) -> Vec<Option<usize>> {
        let mut rows: Vec<Option<usize>> = (0..self.old_count).map(Some).collect();
        let number = self.moved.unsigned_abs() as usize;
        if self.moved < 0 {
            // The deleted rows stand directly before the first moved row.
            rows.drain(self.first - number..self.first);
        } else {
            rows.splice(self.first..self.first, repeat_n(None, number));
        }
        rows
    }
}
