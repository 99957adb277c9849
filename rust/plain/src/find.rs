//! Where the row of a key stands.

use crate::answer::{Answer, Found};
use crate::check::first_unsound;
use crate::keys::{by_rows, Keys};
use crate::table::{Rows, Table};

/// How many levels, or keys, are looked at together for the one that is wanted.
const BLOCK: usize = 16;

/// Finds the row of a key, with its level and its parent's row: refusals 1, 2 and 9.
pub fn find(table: &Table<'_>, key_wanted: usize) -> Found {
    by_rows!(table.count, find_by(table, key_wanted))
}

fn find_by<const SLOTS: usize>(table: &Table<'_>, key_wanted: usize) -> Found {
    match row_of_key(table, key_wanted, &mut Keys::<SLOTS>::new(), first_unsound) {
        Ok((rows, row)) => Found {
            row,
            level: rows.level[row],
            parent: parent_of(rows.level, row).map_or(-1, |parent| parent as i64),
            ..Found::default()
        },
        Err(refused) => Found::refused(refused),
    }
}

/// The rows in use and the row with the key, by a check that enters all keys.
#[inline(always)]
pub(crate) fn row_of_key<'a, const SLOTS: usize>(
    table: &Table<'a>,
    key_wanted: usize,
    keys: &mut Keys<SLOTS>,
    first_unsound: impl FnOnce(&Rows<'_>, &mut Keys<SLOTS>) -> Option<usize>,
) -> Result<(Rows<'a>, usize), Answer> {
    let rows = table.rows_in_use().ok_or(Answer::refused(1, 0))?;
    if let Some(row) = first_unsound(&rows, keys) {
        return Err(Answer::refused(2, row));
    }
    let row = keys.row_of(rows.key, key_wanted).ok_or(Answer::refused(9, 0))?;
    Ok((rows, row))
}

/// The parent of a row of a sound table, unless it is a root: the nearest earlier row whose level
/// is one less. Looked for once, so that the check need not note the parents of all rows.
pub(crate) fn parent_of(level: &[usize], row: usize) -> Option<usize> {
    let wanted = level[row].checked_sub(1)?;
    let mut earlier = &level[..row];
    while let Some((before, block)) = earlier.split_last_chunk::<BLOCK>() {
        if holds(block, wanted) {
            break;
        }
        earlier = before;
    }
    earlier.iter().rposition(|&level| level == wanted)
}

/// The first place of a key.
pub(crate) fn place_of(key: &[usize], wanted: usize) -> Option<usize> {
    let mut later = key;
    while let Some((block, behind)) = later.split_first_chunk::<BLOCK>() {
        if holds(block, wanted) {
            break;
        }
        later = behind;
    }
    let place = later.iter().position(|&key| key == wanted)?;
    Some(key.len() - later.len() + place)
}

/// Whether a number is in the block: without a branch for each, so that several are compared at
/// once.
#[inline(always)]
fn holds(block: &[usize; BLOCK], wanted: usize) -> bool {
    block.iter().fold(false, |met, &number| met | (number == wanted))
}
