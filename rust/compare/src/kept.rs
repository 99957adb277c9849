//! Pairs that are kept for a table while it is edited. That a carried pair still names its key is
//! looked up here, in the tables before and after the edit, and left to neither program.

use crate::case::{Call, Carry, Case, Lists};
use crate::judge::{Difference, Judge};
use lent::Columns;

/// A table, and the pairs that are kept for it.
pub struct Kept {
    pub table: Columns,
    pub count: usize,
    /// The result columns are empty between calls.
    pub lists: Lists,
}

impl Kept {
    /// A call about the table.
    pub fn asks(&self, call: Call) -> Case {
        Case { table: self.table.clone(), count: self.count, call }
    }

    /// The table after the edit, if it is accepted, and the pairs carried over it.
    pub fn after(&self, judge: &mut Judge<'_>, edit: &Call) -> Result<Option<Kept>, Difference> {
        let (edited, left) = judge.pose(self.asks(edit.clone()))?;
        if edited.refusal != 0 {
            return Ok(None);
        }
        let lists = self.carried(judge, edited.second, edited.moved)?;
        let after = Kept { table: left.table, count: edited.first, lists };
        if !self.keys_left(&after).eq(after.keys_held()) {
            let (old, new) = (&self.lists, &after.lists);
            let told = format!("the pairs {old:?}\nare carried to other keys, {new:?}");
            return Err(judge.tell(&self.asks(edit.clone()), &told));
        }
        Ok(Some(after))
    }

    /// The pairs carried over an accepted edit by its first moved row and move.
    fn carried(
        &self,
        judge: &mut Judge<'_>,
        first: usize,
        moved: i64,
    ) -> Result<Lists, Difference> {
        let room = vec![0; self.lists.row.len()];
        let lists = Lists { out_role: room.clone(), out_row: room, ..self.lists.clone() };
        let case = Case::of_carry(self.count, Carry { lists, first, moved });
        let (answer, left) = judge.pose(case)?;
        match left.call {
            Call::Carry(Carry { lists, .. }) if answer.refusal == 0 => {
                Ok(lists.results(answer.first))
            }
            _ => Err(judge.tell(&left, "it refuses what an accepted edit answered")),
        }
    }

    /// Each pair's role, and the key of its row if that row is in use.
    fn keys_held(&self) -> impl Iterator<Item = (usize, Option<usize>)> + '_ {
        let keys = &self.table.key[..self.count];
        let pairs = self.lists.role.iter().zip(&self.lists.row);
        pairs.map(|(&role, &row)| (role, keys.get(row).copied()))
    }

    /// The same before an edit, without the pairs whose key no row has afterwards.
    fn keys_left<'a>(
        &'a self,
        after: &'a Kept,
    ) -> impl Iterator<Item = (usize, Option<usize>)> + 'a {
        let in_use = &after.table.key[..after.count];
        self.keys_held().filter(|(_, key)| key.is_some_and(|key| in_use.contains(&key)))
    }
}
