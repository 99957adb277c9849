//! Insertion, deletion and rename in the lent columns.

use crate::answer::Answer;
use crate::check::{first_unsound, first_unsound_with_parents, parent, Up};
use crate::find::row_of_key;
use crate::keys::{by_rows, Keys};
use crate::table::{Rows, Table};
use crate::{LEVELS, MOST_ROWS};

/// Five columns that are lent to be changed, and the count of rows in use.
#[derive(Debug)]
pub struct TableMut<'a> {
    /// Keys.
    pub key: &'a mut [usize],
    /// Sizes.
    pub size: &'a mut [usize],
    /// Levels.
    pub level: &'a mut [usize],
    /// Kinds.
    pub kind: &'a mut [usize],
    /// Names.
    pub name: &'a mut [usize],
    /// The count of rows in use.
    pub count: usize,
}

/// Makes the piece the last child of the row with the key: refusals 1, 2 and 9 to 14.
pub fn insert(table: &mut TableMut<'_>, parent_key: usize, piece: &Table<'_>) -> Answer {
    by_rows!(table.count, insert_by(table, parent_key, piece))
}

/// Deletes the row with the key and what is below it: refusals 1, 2, 9 and 15.
pub fn delete(table: &mut TableMut<'_>, key_wanted: usize) -> Answer {
    by_rows!(table.count, delete_by(table, key_wanted))
}

/// Gives the row with the key another name: refusals 1, 2, 9 and 16.
pub fn rename(table: &mut TableMut<'_>, key_wanted: usize, new_name: usize) -> Answer {
    by_rows!(table.count, rename_by(table, key_wanted, new_name))
}

fn insert_by<const SLOTS: usize>(
    table: &mut TableMut<'_>,
    parent_key: usize,
    piece: &Table<'_>,
) -> Answer {
    let (mut keys, mut up) = (Keys::<SLOTS>::new(), [0; MOST_ROWS]);
    match gap_for(&table.as_lent(), parent_key, piece, &mut keys, &mut up) {
        Ok((parent, piece)) => table.open_gap(parent, &piece, &up),
        Err(refused) => refused,
    }
}

fn delete_by<const SLOTS: usize>(table: &mut TableMut<'_>, key_wanted: usize) -> Answer {
    let (mut keys, mut up) = (Keys::<SLOTS>::new(), [0; MOST_ROWS]);
    match row_with_parents(&table.as_lent(), key_wanted, &mut keys, &mut up) {
        // The only root: with all that is below it, it is the whole table.
        Ok((rows, row)) if rows.size[row] + 1 == rows.count() => Answer::refused(15, 0),
        Ok((_, row)) => table.close_gap(row, &up),
        Err(refused) => refused,
    }
}

fn rename_by<const SLOTS: usize>(
    table: &mut TableMut<'_>,
    key_wanted: usize,
    new_name: usize,
) -> Answer {
    match row_of_key(&table.as_lent(), key_wanted, &mut Keys::<SLOTS>::new(), first_unsound) {
        Ok((rows, row)) if !matches!(rows.kind[row], 1 | 4) || new_name == 0 => {
            Answer::refused(16, row)
        }
        Ok((_, row)) => {
            table.name[row] = new_name;
            Answer { first: table.count, second: table.count, ..Answer::default() }
        }
        Err(refused) => refused,
    }
}

/// The rows in use and the row with the key. The parents of all rows are noted on the way: a search
/// for each ancestor afterwards takes longer.
#[inline(always)]
fn row_with_parents<'a, const SLOTS: usize>(
    table: &Table<'a>,
    key_wanted: usize,
    keys: &mut Keys<SLOTS>,
    up: &mut Up,
) -> Result<(Rows<'a>, usize), Answer> {
    row_of_key(table, key_wanted, keys, |rows, keys| first_unsound_with_parents(rows, keys, up))
}

/// The parent's row and the rows of the piece, where the insertion is accepted.
#[inline(always)]
fn gap_for<'p, const SLOTS: usize>(
    table: &Table<'_>,
    parent_key: usize,
    piece: &Table<'p>,
    keys: &mut Keys<SLOTS>,
    up: &mut Up,
) -> Result<(usize, Rows<'p>), Answer> {
    let (rows, parent) = row_with_parents(table, parent_key, keys, up)?;
    let piece = sound_piece(piece).ok_or(Answer::refused(10, 0))?;
    if rows.kind[parent] > 1 {
        return Err(Answer::refused(11, parent));
    }
    let deepest = piece.level.iter().copied().max().unwrap_or(0);
    if rows.level[parent] + 1 + deepest >= LEVELS {
        return Err(Answer::refused(12, 0));
    }
    let is_taken = |key: &usize| keys.row_of(rows.key, *key).is_some();
    if let Some(row) = piece.key.iter().position(is_taken) {
        return Err(Answer::refused(13, row));
    }
    if rows.count() + piece.count() > MOST_ROWS.min(table.shortest()) {
        return Err(Answer::refused(14, 0));
    }
    Ok((parent, piece))
}

/// The rows of the piece, where it is sound, one tree, and doesn't start with a document.
fn sound_piece<'p>(piece: &Table<'p>) -> Option<Rows<'p>> {
    let rows = piece.rows_in_use()?;
    let unsound = by_rows!(rows.count(), first_unsound_alone(&rows));
    let one_tree = rows.size[0].wrapping_add(1) == rows.count();
    (unsound.is_none() && one_tree && rows.kind[0] != 0).then_some(rows)
}

fn first_unsound_alone<const SLOTS: usize>(rows: &Rows<'_>) -> Option<usize> {
    first_unsound(rows, &mut Keys::<SLOTS>::new())
}

impl TableMut<'_> {
    pub(crate) fn as_lent(&self) -> Table<'_> {
        Table {
            key: self.key,
            size: self.size,
            level: self.level,
            kind: self.kind,
            name: self.name,
            count: self.count,
        }
    }

    pub(crate) fn columns(&mut self) -> [&mut [usize]; 5] {
        [self.key, self.size, self.level, self.kind, self.name]
    }

    /// Puts the piece behind the last row below its parent.
    fn open_gap(&mut self, parent: usize, piece: &Rows<'_>, up: &Up) -> Answer {
        let (count, added) = (self.count, piece.count());
        let gap = parent + self.size[parent] + 1;
        let level = self.level[parent] + 1;
        let pieces = [piece.key, piece.size, piece.level, piece.kind, piece.name];
        for (column, piece) in self.columns().into_iter().zip(pieces) {
            column.copy_within(gap..count, gap + added);
            column[gap..gap + added].copy_from_slice(piece);
        }
        self.level[gap..gap + added].iter_mut().for_each(|own| *own += level);
        self.size[parent] += added;
        for_each_ancestor(parent, up, |row| self.size[row] += added);
        Answer { first: count + added, second: gap, moved: added as i64, ..Answer::default() }
    }

    /// Takes out the row and what is below it.
    fn close_gap(&mut self, row: usize, up: &Up) -> Answer {
        let (count, removed) = (self.count, self.size[row] + 1);
        for_each_ancestor(row, up, |row| self.size[row] -= removed);
        for column in self.columns() {
            column.copy_within(row + removed..count, row);
            column[count - removed..count].fill(0);
        }
        Answer {
            first: count - removed,
            second: row + removed,
            moved: -(removed as i64),
            ..Answer::default()
        }
    }
}

fn for_each_ancestor(mut row: usize, up: &Up, mut visit: impl FnMut(usize)) {
    while let Some(parent) = parent(up, row) {
        visit(parent);
        row = parent;
    }
}
