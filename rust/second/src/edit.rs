//! Edits: the rows become trees, one of the trees is changed, and the trees become rows again.

use crate::answer::{Answer, Refused};
use crate::forest::{Forest, Line};
use crate::sound::DEEPEST;
use crate::table::{Rows, Table};
use crate::{row_of_key, sound_rows, MOST_ROWS};

/// Five columns that are lent to be changed, and the count of rows in use.
#[derive(Debug)]
pub struct TableMut<'a> {
    /// Keys.
    pub key: &'a mut [usize],
    /// Sizes.
    pub size: &'a mut [usize],
    /// Levels.
    pub level: &'a mut [usize],
    /// Kinds.
    pub kind: &'a mut [usize],
    /// Names.
    pub name: &'a mut [usize],
    /// The count of rows in use.
    pub count: usize,
}

/// Makes the piece the last child of the row with the key: refusals 1, 2 and 9 to 14.
pub fn insert(table: &mut TableMut<'_>, parent_key: usize, piece: &Table<'_>) -> Answer {
    let changed = inserted(&table.as_lent(), parent_key, piece);
    table.finish(changed)
}

/// Deletes the row with the key and what is below it: refusals 1, 2, 9 and 15.
pub fn delete(table: &mut TableMut<'_>, key_wanted: usize) -> Answer {
    let changed = deleted(&table.as_lent(), key_wanted);
    table.finish(changed)
}

/// Gives the row with the key another name: refusals 1, 2, 9 and 16.
pub fn rename(table: &mut TableMut<'_>, key_wanted: usize, new_name: usize) -> Answer {
    let changed = renamed(&table.as_lent(), key_wanted, new_name);
    table.finish(changed)
}

fn inserted(table: &Table<'_>, parent_key: usize, piece: &Table<'_>) -> Result<Forest, Refused> {
    let rows = sound_rows(table)?;
    let parent = row_of_key(&rows, parent_key)?;
    let piece = good_piece(piece)?;
    if rows.kind[parent] != 0 && rows.kind[parent] != 1 {
        return Err(Refused { number: 11, place: parent });
    }
    if piece.level.iter().any(|level| rows.level[parent] + 1 + level > DEEPEST) {
        return Err(Refused { number: 12, place: 0 });
    }
    if let Some(taken) = piece.numbers().find(|&row| rows.key.contains(&piece.key[row])) {
        return Err(Refused { number: 13, place: taken });
    }
    let new_count = rows.count() + piece.count();
    if new_count > MOST_ROWS || new_count > table.shortest_column() {
        return Err(Refused { number: 14, place: 0 });
    }
    let mut forest = Forest::of(&rows);
    forest.insert_as_last(parent, Forest::of(&piece));
    Ok(forest)
}

/// The rows of the piece, unless it would get refusal 1 or 2, starts with a document, or is more
/// than one tree.
fn good_piece<'a>(piece: &Table<'a>) -> Result<Rows<'a>, Refused> {
    match sound_rows(piece) {
        Ok(rows) if rows.kind[0] != 0 && Forest::of(&rows).roots.len() == 1 => Ok(rows),
        _ => Err(Refused { number: 10, place: 0 }),
    }
}

fn deleted(table: &Table<'_>, key_wanted: usize) -> Result<Forest, Refused> {
    let rows = sound_rows(table)?;
    let row = row_of_key(&rows, key_wanted)?;
    let mut forest = Forest::of(&rows);
    if forest.roots == [row] {
        return Err(Refused { number: 15, place: 0 });
    }
    forest.delete(row);
    Ok(forest)
}

fn renamed(table: &Table<'_>, key_wanted: usize, new_name: usize) -> Result<Forest, Refused> {
    let rows = sound_rows(table)?;
    let row = row_of_key(&rows, key_wanted)?;
    let has_name = rows.kind[row] == 1 || rows.kind[row] == 4;
    if !has_name || new_name == 0 {
        return Err(Refused { number: 16, place: row });
    }
    let mut forest = Forest::of(&rows);
    forest.rename(row, new_name);
    Ok(forest)
}

impl TableMut<'_> {
    pub(crate) fn as_lent(&self) -> Table<'_> {
        Table {
            key: self.key,
            size: self.size,
            level: self.level,
            kind: self.kind,
            name: self.name,
            count: self.count,
        }
    }

    /// Writes the changed trees, or nothing on a refusal, and answers.
    fn finish(&mut self, changed: Result<Forest, Refused>) -> Answer {
        match changed {
            Ok(forest) => self.write(&forest.lines()),
            Err(refused) => refused.answer(),
        }
    }

    /// Writes the rows now in use and zeroes those that were freed; other rows are left alone.
    pub(crate) fn write(&mut self, lines: &[Line]) -> Answer {
        for (row, line) in lines.iter().enumerate() {
            self.write_row(row, [line.key, line.size, line.level, line.kind, line.name]);
        }
        for freed in lines.len()..self.count {
            self.write_row(freed, [0; 5]);
        }
        Answer {
            first: lines.len(),
            second: first_moved_row(lines, self.count),
            moved: lines.len() as i64 - self.count as i64,
            ..Answer::default()
        }
    }

    fn write_row(&mut self, row: usize, values: [usize; 5]) {
        self.key[row] = values[0];
        self.size[row] = values[1];
        self.level[row] = values[2];
        self.kind[row] = values[3];
        self.name[row] = values[4];
    }
}

/// The least old row that is still there and now stands elsewhere; where no row moved, the old
/// count.
fn first_moved_row(lines: &[Line], old_count: usize) -> usize {
    let places = lines.iter().enumerate();
    let old_rows_moved = places
        .filter(|(row, line)| line.node < old_count && line.node != *row)
        .map(|(_, line)| line.node);
    old_rows_moved.min().unwrap_or(old_count)
}
