//! A batch: the rows become trees, these are changed item by item until one is refused, and the
//! trees become rows again.

use crate::answer::{Answer, Refused};
use crate::edit::TableMut;
use crate::forest::Forest;
use crate::sound_rows;
use crate::table::Table;

/// The most items that a list may have.
const MOST_ITEMS: usize = 256;

/// Three columns that give code, key and name of each item.
#[derive(Clone, Copy, Debug)]
pub struct Items<'a> {
    /// Codes: 1 deletes, 2 renames.
    pub code: &'a [usize],
    /// Keys.
    pub key: &'a [usize],
    /// Names.
    pub name: &'a [usize],
}

/// What is to be done with the node of a key.
enum Change {
    Delete { key: usize },
    Rename { key: usize, name: usize },
}

/// Does the items one by one in list order, and stops at the first that is refused: refusals 1, 2
/// and 18, then 9, 15 and 16 of the items. The earlier ones stay done, and are counted.
pub fn batch(table: &mut TableMut<'_>, items: &Items<'_>) -> Answer {
    let (mut forest, changes) = match opened(&table.as_lent(), items) {
        Ok(opened) => opened,
        Err(refused) => return Answer { second: table.count, ..refused.answer() },
    };
    let mut done = 0;
    let mut stopped = Answer::default();
    for change in changes {
        match forest.change(change) {
            Ok(()) => done += 1,
            Err(refused) => {
                stopped = refused.answer();
                break;
            }
        }
    }
    let count = table.write(&forest.lines()).first;
    Answer { first: done, second: count, ..stopped }
}

/// The trees of a sound table, and the changes of a good list.
fn opened(table: &Table<'_>, items: &Items<'_>) -> Result<(Forest, Vec<Change>), Refused> {
    let rows = sound_rows(table)?;
    let changes = items.changes().ok_or(Refused { number: 18, place: 0 })?;
    Ok((Forest::of(&rows), changes))
}

impl Items<'_> {
    /// The whole list, unless its columns are of unequal length or too long, or any code is neither
    /// 1 nor 2. The name is ignored on a delete.
    fn changes(&self) -> Option<Vec<Change>> {
        let length = self.code.len();
        if self.key.len() != length || self.name.len() != length || length > MOST_ITEMS {
            return None;
        }
        let change = |place: usize| match (self.code[place], self.key[place]) {
            (1, key) => Some(Change::Delete { key }),
            (2, key) => Some(Change::Rename { key, name: self.name[place] }),
            _ => None,
        };
        (0..length).map(change).collect()
    }
}

impl Forest {
    /// Changes the trees, or leaves them alone where a deletion or a rename is refused.
    fn change(&mut self, change: Change) -> Result<(), Refused> {
        match change {
            Change::Delete { key } => {
                let (_, node) = self.row_and_node(key)?;
                if self.roots == [node] {
                    return Err(Refused { number: 15, place: 0 });
                }
                self.delete(node);
            }
            Change::Rename { key, name } => {
                let (row, node) = self.row_and_node(key)?;
                let has_name = matches!(self.nodes[node].kind, 1 | 4);
                if !has_name || name == 0 {
                    return Err(Refused { number: 16, place: row });
                }
                self.rename(node, name);
            }
        }
        Ok(())
    }

    /// The node that has the key, and the row in which it stands at this moment: its place among
    /// the nodes that can still be reached.
    fn row_and_node(&self, key: usize) -> Result<(usize, usize), Refused> {
        let mut places = self.in_document_order().into_iter().enumerate();
        places.find(|&(_, node)| self.nodes[node].key == key).ok_or(Refused { number: 9, place: 0 })
    }
}
