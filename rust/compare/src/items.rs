//! Random lists of items.

use crate::random::Random;
use crate::tables::some_key;
use lent::{Columns, Items, DELETE, MOST_ITEMS, RENAME};

/// So many items for the first `rows` rows of a sound table. In some lists all can be done, in
/// others a few or many of them ask for what may be refused.
pub fn some_items(random: &mut Random, table: &Columns, rows: usize, length: usize) -> Items {
    let mut list = List { tries: random.pick(&[1, 3, 3]), ..List::new(table, rows) };
    let odd = random.pick(&[0, 0, 2, 10, 40]);
    let deletions = random.pick(&[0, 20, 50, 80, 100]);
    for _ in 0..length {
        if random.chance(odd) {
            list.add_odd(random);
        } else {
            list.add_fitting(random, deletions);
        }
    }
    list.items
}

/// All roots are to go, one after the other, and now and then a row gets another name between.
pub fn roots_deleted(random: &mut Random, table: &Columns, rows: usize) -> Items {
    let mut list = List::new(table, rows);
    let mut roots: Vec<usize> = (0..rows).filter(|&row| table.level[row] == 0).collect();
    if random.chance(50) {
        random.shuffle(&mut roots);
    }
    if random.chance(30) {
        roots.pop();
    }
    for root in roots {
        if random.chance(30) {
            list.add_fitting(random, 0);
        }
        list.add(random, DELETE, table.key[root]);
    }
    list.items
}

/// A list while it is made, the rows that its deletions leave, and those that they take along with
/// the rows they name, by their first numbers.
struct List<'a> {
    table: &'a Columns,
    rows: usize,
    left: Vec<usize>,
    taken_along: Vec<usize>,
    items: Items,
    /// Of so many rows that are left, an item gets the one with the fewest rows below it: where
    /// they are several, a long list does not empty the table at once.
    tries: usize,
}

impl List<'_> {
    fn new(table: &Columns, rows: usize) -> List<'_> {
        let (left, taken_along) = ((0..rows).collect(), vec![]);
        List { table, rows, left, taken_along, items: Items::default(), tries: 1 }
    }

    /// Adds an item that can be done, unless the row that is picked is the only root and has no
    /// name.
    fn add_fitting(&mut self, random: &mut Random, deletions: usize) {
        let row = self.some_row(random);
        let has_name = matches!(self.table.kind[row], 1 | 4);
        let deletes = !has_name || random.chance(deletions);
        let code = if deletes && !self.is_only_root(row) { DELETE } else { RENAME };
        self.add(random, code, self.table.key[row]);
    }

    /// Adds an item for a key that may be gone or nowhere, or for any row, or one with the name 0.
    fn add_odd(&mut self, random: &mut Random) {
        let table = self.table;
        if random.chance(12) {
            let key = table.key[random.pick(&self.left)];
            return self.items.push(RENAME, key, 0);
        }
        let key = match random.below(7) {
            0 => 0,
            1 => some_key(random, table, self.rows),
            2 if !self.items.key.is_empty() => random.pick(&self.items.key),
            3 | 4 if !self.taken_along.is_empty() => table.key[random.pick(&self.taken_along)],
            _ => table.key[random.pick(&self.left)],
        };
        let code = random.pick(&[DELETE, RENAME]);
        self.add(random, code, key);
    }

    /// Adds an item with some name, and keeps what it leaves.
    fn add(&mut self, random: &mut Random, code: usize, key: usize) {
        let row = self.left.iter().copied().find(|&row| self.table.key[row] == key);
        let own = row.map_or(1, |row| self.table.name[row].max(1));
        let name = match code {
            DELETE => random.pick(&[0, 0, own, usize::MAX]),
            _ => random.pick(&[1, 2, 3, 4, 5, usize::MAX, own]),
        };
        self.items.push(code, key, name);
        if let Some(row) = row.filter(|&row| code == DELETE && !self.is_only_root(row)) {
            let last = row + self.table.size[row];
            self.taken_along
                .extend(self.left.iter().filter(|&&other| other > row && other <= last));
            self.left.retain(|&other| other < row || other > last);
        }
    }

    /// A row that is left.
    fn some_row(&self, random: &mut Random) -> usize {
        let tried = (0..self.tries).map(|_| random.pick(&self.left));
        tried.min_by_key(|&row| self.table.size[row]).expect("a row is tried")
    }

    fn is_only_root(&self, row: usize) -> bool {
        let mut roots = self.left.iter().filter(|&&other| self.table.level[other] == 0);
        roots.next() == Some(&row) && roots.next().is_none()
    }
}

/// Makes columns unequal, the list too long, or a code bad; now and then two of these.
pub fn spoil_items(random: &mut Random, items: &mut Items) {
    for _ in 0..random.pick(&[1, 1, 1, 2]) {
        let column = random.below(3);
        match random.below(7) {
            0 => items.each_mut()[column].push(DELETE),
            1 => {
                items.each_mut()[column].pop();
            }
            2 => lengthen_beyond_most(random, items),
            _ => spoil_code(random, items),
        }
    }
}

/// Lengthens the list to 257 items and more.
fn lengthen_beyond_most(random: &mut Random, items: &mut Items) {
    let key = items.key.last().copied().unwrap_or(1);
    let length = MOST_ITEMS + random.pick(&[1, 1, 2, 256]);
    while items.code.len() < length {
        items.push(RENAME, key, 1);
    }
}

/// Makes the first code bad, the last or any other one: near the good ones, or such that half of
/// its bits are a good one.
fn spoil_code(random: &mut Random, items: &mut Items) {
    if items.code.is_empty() {
        return items.push(0, 1, 1);
    }
    let (last, any) = (items.code.len() - 1, random.below(items.code.len()));
    let place = random.pick(&[0, last, last, any]);
    items.code[place] =
        random.pick(&[0, 3, 4, usize::MAX, (1 << 32) + 1, (1 << 32) + 2, 1 << 32, 257]);
}
