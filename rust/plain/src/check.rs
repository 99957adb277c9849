//! Whether every row is sound, in one pass.

use crate::keys::Keys;
use crate::table::Rows;
use crate::{LEVELS, MOST_ROWS};

/// The parent of each row; a root has none.
pub(crate) type Up = [u16; MOST_ROWS];

/// Stands for the parent of a root, above all rows.
pub(crate) const NONE: u16 = u16::MAX;

/// The parent of a row, unless it is a root.
#[inline(always)]
pub(crate) fn parent(up: &Up, row: usize) -> Option<usize> {
    (up[row] != NONE).then_some(usize::from(up[row]))
}

/// The least unsound row. Where there is none, every key has been entered.
#[inline(always)]
pub(crate) fn first_unsound<const SLOTS: usize>(
    rows: &Rows<'_>,
    keys: &mut Keys<SLOTS>,
) -> Option<usize> {
    first_fault(rows, keys, |_, _| {})
}

/// The same, and the parents of all rows on the way.
#[inline(always)]
pub(crate) fn first_unsound_with_parents<const SLOTS: usize>(
    rows: &Rows<'_>,
    keys: &mut Keys<SLOTS>,
    up: &mut Up,
) -> Option<usize> {
    first_fault(rows, keys, |row, parent| up[row % MOST_ROWS] = parent)
}

#[inline(always)]
fn first_fault<const SLOTS: usize>(
    rows: &Rows<'_>,
    keys: &mut Keys<SLOTS>,
    note_parent: impl FnMut(usize, u16),
) -> Option<usize> {
    if all_sound(rows, keys, note_parent) {
        None
    } else {
        Some(search_unsound::<SLOTS>(rows))
    }
}

/// One pass with the rows that are still open: for each level, which row it is and where it has
/// to end.
#[inline(always)]
fn all_sound<const SLOTS: usize>(
    rows: &Rows<'_>,
    keys: &mut Keys<SLOTS>,
    mut note_parent: impl FnMut(usize, u16),
) -> bool {
    let count = rows.count();
    let (key, size, level) = (&rows.key[..count], &rows.size[..count], &rows.level[..count]);
    let (kind, name) = (&rows.kind[..count], &rows.name[..count]);
    let mut row_at = [0u16; LEVELS];
    // Before row 0 it is as if a tree had ended there.
    let mut end_at = [0usize; LEVELS];
    let mut open = 0;
    for row in 0..count {
        let own = level[row];
        // Level 0 wraps around: a root comes here with the levels that are too deep.
        if own.wrapping_sub(1) > open || own >= LEVELS {
            let all_end = end_at[..=open].iter().all(|&end| end == row);
            if own > 0 || !all_end || !fits_root(kind[row], name[row], size[row]) {
                return false;
            }
            note_parent(row, NONE);
        } else {
            while open >= own {
                if end_at[open % LEVELS] != row {
                    return false;
                }
                open -= 1;
            }
            note_parent(row, row_at[own - 1]);
            if !fits(kind[row], name[row], size[row]) {
                return false;
            }
        }
        row_at[own] = row as u16;
        end_at[own] = size[row].wrapping_add(row + 1);
        open = own;
        if key[row] == 0 || !keys.enter(key, row) {
            return false;
        }
    }
    end_at[..=open].iter().all(|&end| end == count)
}

/// Whether kind, name and size fit each other below a root.
#[inline(always)]
fn fits(kind: usize, name: usize, size: usize) -> bool {
    match kind {
        1 => name != 0,
        4 => name != 0 && size == 0,
        2 | 3 => name == 0 && size == 0,
        _ => false,
    }
}

/// The same at a root, which may be a document too.
#[inline(always)]
fn fits_root(kind: usize, name: usize, size: usize) -> bool {
    fits(kind, name, size) || (kind == 0 && name == 0)
}

/// The least unsound row of a table that has one. Up to that row the sizes are right, so that
/// the runs looked through are at most 64 for each row.
#[cold]
fn search_unsound<const SLOTS: usize>(rows: &Rows<'_>) -> usize {
    let mut keys = Keys::<SLOTS>::new();
    (0..rows.count())
        .find(|&row| !is_sound(rows, row) || !keys.enter(rows.key, row))
        .expect("the pass over all rows found a fault")
}

/// Every rule of a row but that its key is new.
fn is_sound(rows: &Rows<'_>, row: usize) -> bool {
    let (own, size) = (rows.level[row], rows.size[row]);
    let run = rows.level[row + 1..].iter().take_while(|&&level| level > own).count();
    let most = if row == 0 { 0 } else { rows.level[row - 1] + 1 };
    let level_fits = own <= most && own < LEVELS;
    let kind_fits = if own == 0 { fits_root } else { fits };
    level_fits
        && size == run
        && kind_fits(rows.kind[row], rows.name[row], size)
        && rows.key[row] != 0
}
