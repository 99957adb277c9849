//! When a row is sound: the five rules, each by itself, taken row by row.

use crate::table::Rows;

/// The deepest level a row may have.
pub(crate) const DEEPEST: usize = 63;

/// The least row that breaks a rule.
pub(crate) fn least_unsound_row(rows: &Rows<'_>) -> Option<usize> {
    rows.numbers().find(|&row| !is_sound(rows, row))
}

fn is_sound(rows: &Rows<'_>, row: usize) -> bool {
    level_holds(rows, row)
        && size_holds(rows, row)
        && kind_holds(rows, row)
        && name_holds(rows, row)
        && key_holds(rows, row)
}

/// Row 0 has level 0. Any later row has a level from 0 to one more than the level of the row
/// before it; with level 0 it starts a new tree. No level is above 63.
fn level_holds(rows: &Rows<'_>, row: usize) -> bool {
    let level = rows.level[row];
    if level > DEEPEST {
        return false;
    }
    if row == 0 {
        return level == 0;
    }
    // Written with a difference, since the level before may be the largest number there is.
    level == 0 || level - 1 <= rows.level[row - 1]
}

/// The size is the number of rows directly after the row, without a break, whose level is
/// greater than its own.
fn size_holds(rows: &Rows<'_>, row: usize) -> bool {
    let own = rows.level[row];
    let after = &rows.level[row + 1..];
    rows.size[row] == after.iter().take_while(|&&level| level > own).count()
}

/// The kind is 0 to 4. Kind 0 only where a tree starts. Kinds 2, 3 and 4 have size 0.
fn kind_holds(rows: &Rows<'_>, row: usize) -> bool {
    match rows.kind[row] {
        0 => rows.level[row] == 0,
        1 => true,
        2..=4 => rows.size[row] == 0,
        _ => false,
    }
}

/// The name is not 0 for kinds 1 and 4, and 0 for kinds 0, 2 and 3.
fn name_holds(rows: &Rows<'_>, row: usize) -> bool {
    match rows.kind[row] {
        1 | 4 => rows.name[row] != 0,
        0 | 2 | 3 => rows.name[row] == 0,
        _ => true,
    }
}

/// The key is not 0, and unlike the key of every earlier row.
fn key_holds(rows: &Rows<'_>, row: usize) -> bool {
    let key = rows.key[row];
    key != 0 && rows.key[..row].iter().all(|&earlier| earlier != key)
}
