//! Several deletions and renames in one call.

use crate::boundary::{self, Answer};
use crate::{Refusal, TableMut};

/// A list of deletions and renames, an item at each place: at most 256, in three columns of equal
/// length.
#[derive(Clone, Copy, Debug, PartialEq, Eq)]
pub struct Items<'a> {
    /// What each item does: [`ITEM_DELETE`](crate::codes::ITEM_DELETE) or
    /// [`ITEM_RENAME`](crate::codes::ITEM_RENAME).
    pub code: &'a [usize],
    /// The key of the row that it is about.
    pub key: &'a [usize],
    /// The new name. On a deletion it is ignored.
    pub name: &'a [usize],
}

/// How far a batch came. It is answered on refusals too, since what was done before stays done.
#[must_use = "a batch may have stopped at an item that was refused"]
#[derive(Clone, Copy, Debug, PartialEq, Eq)]
#[non_exhaustive]
pub struct Batched {
    /// How many items were done, from place 0 on. Where an item was refused, this is its place.
    pub done: usize,
    /// The count of rows in use now.
    pub count: usize,
    /// The refusal that stopped the batch, if one did.
    pub refusal: Option<Refusal>,
}

impl Batched {
    /// How many items were done, which is all of them, unless one was refused.
    ///
    /// # Errors
    ///
    /// The refusal that stopped the batch. The items before it stay done.
    pub fn all_done(self) -> Result<usize, Refusal> {
        match self.refusal {
            None => Ok(self.done),
            Some(refusal) => Err(refusal),
        }
    }
}

impl TableMut<'_> {
    /// Does the items of a list as [`delete`](TableMut::delete) and [`rename`](TableMut::rename) do
    /// them one by one, in their order, but checks the table only once. The first item that is
    /// refused stops it: those before it stay done, those behind it are not tried.
    ///
    /// ```
    /// use reach::codes::{ITEM_DELETE, ITEM_RENAME};
    /// use reach::{Items, Refusal, TableMut};
    ///
    /// // A turbine with two blades, the first with a setpoint.
    /// let mut table = TableMut {
    ///     key: &mut [20, 21, 22, 23],
    ///     size: &mut [3, 1, 0, 0],
    ///     level: &mut [0, 1, 2, 1],
    ///     kind: &mut [1, 1, 1, 1],
    ///     name: &mut [2, 3, 4, 3],
    ///     count: 4,
    /// };
    /// // The setpoint goes with its blade, so it is gone when the third item comes to it.
    /// let items = Items {
    ///     code: &[ITEM_DELETE, ITEM_RENAME, ITEM_RENAME, ITEM_RENAME],
    ///     key: &[21, 23, 22, 20],
    ///     name: &[0, 7, 8, 9],
    /// };
    /// let batched = table.batch(items);
    /// assert_eq!((batched.done, batched.count), (2, 2));
    /// assert_eq!(batched.refusal, Some(Refusal::UnknownKey));
    /// assert_eq!((&*table.key, &*table.name), (&[20, 23, 0, 0][..], &[2, 7, 0, 0][..]));
    ///
    /// // What stands behind the refused item was not tried, and can be sent again.
    /// let rest = Items { code: &items.code[3..], key: &items.key[3..], name: &items.name[3..] };
    /// assert_eq!(table.batch(rest).all_done(), Ok(1));
    /// assert_eq!(table.name[0], 9);
    /// ```
    ///
    /// Grants can't be carried over a batch by one [`Pairs::carry`](crate::Pairs::carry), since
    /// there is no single first moved row. Where grants are kept, edit with `delete` and `rename`
    /// and carry after each; or do the items that were done once more, one by one on a copy of the
    /// table as it was, and carry after each.
    ///
    /// # Refusals
    ///
    /// In this order: [`Refusal::BadCount`], [`Refusal::UnsoundRow`] and
    /// [`codes::REFUSED_BAD_LIST`](crate::codes::REFUSED_BAD_LIST), an [`Refusal::Unlisted`], on
    /// which nothing is done; then those of the items: [`Refusal::UnknownKey`],
    /// [`Refusal::DeletesRoot`] and [`Refusal::BadRename`], whose row is that of the moment, after
    /// the items before it.
    pub fn batch(&mut self, items: Items<'_>) -> Batched {
        let Answer { refusal, place, first, second, .. } = boundary::batch(self, items);
        self.count = second;
        let refusal = (refusal != 0).then(|| Refusal::from_number(refusal, place));
        Batched { done: first, count: second, refusal }
    }
}
