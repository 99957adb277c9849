//! Several deletions and renames under one check.

use crate::answer::Answer;
use crate::check::first_unsound;
use crate::edit::TableMut;
use crate::find::parent_of;
use crate::keys::{by_rows, Keys};
use crate::table::Table;

/// The most items that a list may have.
const MOST_ITEMS: usize = 256;
/// The codes of an item.
const DELETE: usize = 1;
const RENAME: usize = 2;

/// Three columns that give code, key and name of each item.
#[derive(Clone, Copy, Debug)]
pub struct Items<'a> {
    /// Codes: 1 deletes, 2 renames.
    pub code: &'a [usize],
    /// Keys.
    pub key: &'a [usize],
    /// Names.
    pub name: &'a [usize],
}

/// Does the items one by one, and stops at the first that is refused: refusals 1, 2 and 18, then 9,
/// 15 and 16 of the items. Says on refusals too how many were done, and the count then.
pub fn batch(table: &mut TableMut<'_>, items: &Items<'_>) -> Answer {
    by_rows!(table.count, batch_by(table, items))
}

fn batch_by<const SLOTS: usize>(table: &mut TableMut<'_>, items: &Items<'_>) -> Answer {
    let mut keys = Keys::<SLOTS>::new();
    let given = table.count;
    if let Err(refused) = check(&table.as_lent(), items, &mut keys) {
        return Answer { second: given, ..refused };
    }
    let mut open = Open { keys: &keys, given, count: given, columns: table.columns() };
    let mut done = 0;
    let mut stopped = Answer::default();
    for ((&code, &key), &name) in items.code.iter().zip(items.key).zip(items.name) {
        let outcome = if code == DELETE { open.delete(key) } else { open.rename(key, name) };
        if let Err(refused) = outcome {
            stopped = refused;
            break;
        }
        done += 1;
    }
    Answer { first: done, second: open.finish(), ..stopped }
}

/// Checks the table, with all its keys entered, and then the list.
#[inline(always)]
fn check<const SLOTS: usize>(
    table: &Table<'_>,
    items: &Items<'_>,
    keys: &mut Keys<SLOTS>,
) -> Result<(), Answer> {
    let rows = table.rows_in_use().ok_or(Answer::refused(1, 0))?;
    if let Some(row) = first_unsound(&rows, keys) {
        return Err(Answer::refused(2, row));
    }
    if items.are_good() {
        Ok(())
    } else {
        Err(Answer::refused(18, 0))
    }
}

impl Items<'_> {
    fn are_good(&self) -> bool {
        let length = self.code.len();
        length <= MOST_ITEMS
            && [self.key.len(), self.name.len()] == [length; 2]
            && self.code.iter().all(|&code| code == DELETE || code == RENAME)
    }
}

/// A sound table while items are done: what is sound stays so.
struct Open<'a, const SLOTS: usize> {
    keys: &'a Keys<SLOTS>,
    /// The count at first, and now.
    given: usize,
    count: usize,
    columns: [&'a mut [usize]; 5],
}

impl<const SLOTS: usize> Open<'_, SLOTS> {
    #[inline(always)]
    fn row_of(&self, key_wanted: usize) -> Result<usize, Answer> {
        let key = &self.columns[0][..self.count];
        let row = match self.given - self.count {
            0 => self.keys.row_of(key, key_wanted),
            gone => self.keys.row_since(key, key_wanted, gone),
        };
        row.ok_or(Answer::refused(9, 0))
    }

    fn rename(&mut self, key_wanted: usize, new_name: usize) -> Result<(), Answer> {
        let row = self.row_of(key_wanted)?;
        let [_, _, _, kind, name] = &mut self.columns;
        if !matches!(kind[row], 1 | 4) || new_name == 0 {
            return Err(Answer::refused(16, row));
        }
        name[row] = new_name;
        Ok(())
    }

    fn delete(&mut self, key_wanted: usize) -> Result<(), Answer> {
        let row = self.row_of(key_wanted)?;
        let (count, removed) = (self.count, self.columns[1][row] + 1);
        if removed == count {
            return Err(Answer::refused(15, 0));
        }
        self.shrink_above(row, removed);
        for column in &mut self.columns {
            column.copy_within(row + removed..count, row);
        }
        self.count -= removed;
        Ok(())
    }

    /// Takes so many rows off the sizes of all ancestors. Each is looked for from the one below it
    /// on, so that the levels before the row are passed once at most.
    fn shrink_above(&mut self, row: usize, removed: usize) {
        let [_, size, level, ..] = &mut self.columns;
        // Where all rows are one tree, its root need not be looked for.
        let one_tree = size[0] + 1 == self.count;
        let parent = |row: usize| match level[row] {
            1 if one_tree => Some(0),
            _ => parent_of(level, row),
        };
        let mut below = row;
        while let Some(above) = parent(below) {
            size[above] -= removed;
            below = above;
        }
    }

    /// Clears the rows that were freed, and gives the count.
    fn finish(self) -> usize {
        for column in self.columns {
            column[self.count..self.given].fill(0);
        }
        self.count
    }
}
