//! The pairs that a step or a carry is asked for.

use crate::answer::Answer;
use crate::MOST_ROWS;

/// Two columns that give role and row of each pair.
#[derive(Clone, Copy, Debug)]
pub struct Pairs<'a> {
    /// Roles.
    pub role: &'a [usize],
    /// Rows.
    pub row: &'a [usize],
}

impl<'a> Pairs<'a> {
    /// Refusals 3, 4 and 5; otherwise the number of roles, which costs nothing where it is not
    /// asked for.
    #[inline(always)]
    pub(crate) fn check(&self, count: usize) -> Result<usize, Answer> {
        let (role, row) = (self.role, self.row);
        if role.len() != row.len() || role.len() > MOST_ROWS {
            return Err(Answer::refused(3, 0));
        }
        // All places are looked at without a branch; only a fault is then searched for.
        let (mut falls, mut changes, mut outside) = (false, 0, false);
        for (roles, rows) in role.windows(2).zip(row.windows(2)) {
            falls |= falls_between(roles, rows);
            changes += usize::from(roles[0] != roles[1]);
        }
        row.iter().for_each(|&row| outside |= row >= count);
        if falls {
            let mut pairs = role.windows(2).zip(row.windows(2));
            let before = pairs.position(|(roles, rows)| falls_between(roles, rows));
            return Err(Answer::refused(4, before.map_or(0, |before| before + 1)));
        }
        if outside {
            let place = row.iter().position(|&row| row >= count);
            return Err(Answer::refused(5, place.unwrap_or(0)));
        }
        Ok(changes + usize::from(!role.is_empty()))
    }

    /// Each role with its rows, ascending; equal pairs are still there.
    pub(crate) fn by_role(&self) -> impl Iterator<Item = (usize, &'a [usize])> {
        let (role, row) = (self.role, self.row);
        let mut start = 0;
        std::iter::from_fn(move || {
            let own = *role.get(start)?;
            let mut end = start + 1;
            while role.get(end) == Some(&own) {
                end += 1;
            }
            let rows = &row[start..end];
            start = end;
            Some((own, rows))
        })
    }
}

/// Whether the second of two pairs is less than the first.
#[inline(always)]
fn falls_between(roles: &[usize], rows: &[usize]) -> bool {
    (roles[1] < roles[0]) | ((roles[1] == roles[0]) & (rows[1] < rows[0]))
}
