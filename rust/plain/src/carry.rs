//! Pairs carried over an edit, so that each names the key that it named before.

use crate::answer::Answer;
use crate::pairs::Pairs;
use crate::sink::Results;
use crate::MOST_ROWS;

/// How many pairs are written at a time where some go.
const STRIDE: usize = 8;

/// Carries pairs over an edit by what it answered, the first moved row and the move: refusals 1,
/// 3, 4, 5, 17 and 8, in this order. The new list is written only where the call is accepted.
pub fn carry(
    pairs: &Pairs<'_>,
    old_count: usize,
    first: usize,
    moved: i64,
    results: &mut Results<'_>,
) -> Answer {
    if !(1..=MOST_ROWS).contains(&old_count) {
        return Answer::refused(1, 0);
    }
    if let Err(refused) = pairs.check(old_count) {
        return refused;
    }
    let Some(shift) = Shift::of(old_count, first, moved) else {
        return Answer::refused(17, 0);
    };
    let length = shift.kept(pairs.row);
    if length > results.role.len().min(results.row.len()) {
        return Answer::refused(8, length);
    }
    let (out_role, out_row) = (&mut results.role[..length], &mut results.row[..length]);
    if length == pairs.row.len() {
        shift.write_all(pairs, out_role, out_row);
    } else {
        shift.write_kept(pairs, out_role, out_row);
    }
    Answer { first: length, ..Answer::default() }
}

/// What an edit did to the rows.
#[derive(Clone, Copy)]
struct Shift {
    /// The rows that went are this one and so many from it on.
    gone: usize,
    removed: usize,
    /// The rows from here on moved.
    first: usize,
    moved: isize,
}

impl Shift {
    /// The shift, unless no edit of so many rows can answer this.
    fn of(old_count: usize, first: usize, moved: i64) -> Option<Shift> {
        let new_count = (old_count as i64).checked_add(moved)?;
        if !(1..=old_count).contains(&first) || !(1..=MOST_ROWS as i64).contains(&new_count) {
            return None;
        }
        // Both counts are small, so the move is.
        let moved = moved as isize;
        let removed = moved.min(0).unsigned_abs();
        let gone = first.checked_sub(removed)?;
        Some(Shift { gone, removed, first, moved })
    }

    /// How many of the rows stay.
    fn kept(self, rows: &[usize]) -> usize {
        if self.removed == 0 {
            return rows.len();
        }
        rows.iter().filter(|&&row| self.keeps(row)).count()
    }

    #[inline(always)]
    fn keeps(self, row: usize) -> bool {
        // A row before those that went wraps around to a large number.
        row.wrapping_sub(self.gone) >= self.removed
    }

    #[inline(always)]
    fn new_row(self, row: usize) -> usize {
        row.wrapping_add_signed(if row >= self.first { self.moved } else { 0 })
    }

    /// Writes all pairs, of which none went.
    fn write_all(self, pairs: &Pairs<'_>, out_role: &mut [usize], out_row: &mut [usize]) {
        out_role.copy_from_slice(pairs.role);
        out_row.iter_mut().zip(pairs.row).for_each(|(slot, &row)| *slot = self.new_row(row));
    }

    /// Writes the pairs that stay, of which there are as many as places. Behind the last of them
    /// there is no place, so the rest is cut off first.
    fn write_kept(self, pairs: &Pairs<'_>, out_role: &mut [usize], out_row: &mut [usize]) {
        let end = pairs.row.iter().rposition(|&row| self.keeps(row)).map_or(0, |last| last + 1);
        let (role, row) = (&pairs.role[..end], &pairs.row[..end]);
        let (mut done, mut place) = (0, 0);
        // The compiler sees that a stride stays within as many places, and checks none of them.
        for (roles, rows) in role.chunks_exact(STRIDE).zip(row.chunks_exact(STRIDE)) {
            let to_roles = out_role[place..].first_chunk_mut::<STRIDE>();
            let to_rows = out_row[place..].first_chunk_mut::<STRIDE>();
            let (Some(to_roles), Some(to_rows)) = (to_roles, to_rows) else {
                break;
            };
            place += self.write_run(roles, rows, to_roles, to_rows);
            done += STRIDE;
        }
        let (out_role, out_row) = (&mut out_role[place..], &mut out_row[place..]);
        self.write_run(&role[done..], &row[done..], out_role, out_row);
    }

    /// Writes those of a run of pairs that stay, and answers how many they are. There is no branch
    /// on whether one does: each is written to the next place, and where it went the one after it
    /// overwrites it.
    #[inline(always)]
    fn write_run(
        self,
        role: &[usize],
        row: &[usize],
        out_role: &mut [usize],
        out_row: &mut [usize],
    ) -> usize {
        let mut place = 0;
        for (&role, &row) in role.iter().zip(row) {
            out_role[place] = role;
            out_row[place] = self.new_row(row);
            place += usize::from(self.keeps(row));
        }
        place
    }
}
