//! The library's own functions with bare numbers: every code can be posed, and every number of
//! the answer can be seen. [`codes`](crate::codes) has their names.
//!
//! All `unsafe` code stands here. What a call needs, Rust's borrow rules already give: the
//! pointer of a slice is never null, also at length 0, its elements stand in memory as one run,
//! and a column that is lent to be written overlaps no other. The library checks all the rest.

#![allow(unsafe_code)]

use crate::{Items, Pairs, Refusal, Results, Table, TableMut};

const _: () = assert!(usize::BITS == 64, "the library's numbers have 64 bits");

/// What the library answers, but for [`find`]. What a function doesn't use is 0; on a refusal all
/// but the first two are 0, except in a [`batch`], which says then too how far it came.
#[repr(C)]
#[derive(Clone, Copy, Debug, Default, PartialEq, Eq)]
#[non_exhaustive]
pub struct Answer {
    /// The refusal's number, or 0 where the call is accepted.
    pub refusal: usize,
    /// The refusal's place.
    pub place: usize,
    /// Step: the number of results. Edits: the new count. Carry: the length of the new list. Batch:
    /// how many items were done.
    pub first: usize,
    /// Step: the kept count. Edits: the first moved row, in old numbering. Batch: the count then.
    pub second: usize,
    /// Edits: by how many rows it moved, negative for a deletion.
    pub moved: i64,
}

impl Answer {
    /// The answer itself where the call was accepted, else its refusal.
    pub fn accepted(self) -> Result<Answer, Refusal> {
        accepted(self.refusal, self.place).map(|()| self)
    }
}

/// What [`find`] answers. On a refusal all but the first two are 0.
#[repr(C)]
#[derive(Clone, Copy, Debug, Default, PartialEq, Eq)]
#[non_exhaustive]
pub struct Found {
    /// The refusal's number, or 0 where the call is accepted.
    pub refusal: usize,
    /// The refusal's place.
    pub place: usize,
    /// The row of the key.
    pub row: usize,
    /// Its level.
    pub level: usize,
    /// Its parent's row, or -1 for a root, which has none.
    pub parent: i64,
}

impl Found {
    /// The answer itself where the call was accepted, else its refusal.
    pub fn accepted(self) -> Result<Found, Refusal> {
        accepted(self.refusal, self.place).map(|()| self)
    }
}

/// The refusal of this number, unless it is 0.
fn accepted(number: usize, place: usize) -> Result<(), Refusal> {
    match number {
        0 => Ok(()),
        _ => Err(Refusal::from_number(number, place)),
    }
}

/// Declares functions that take the columns of a table (each as pointer and length) and its count,
/// then what stands after the semicolon.
macro_rules! declare {
    ($(fn $function:ident(table: *$pointer:tt; $($more:ident: $type:ty),*) -> $answer:ty;)*) => {
        extern "C" {
            $(fn $function(
                key: *$pointer usize,
                key_length: usize,
                size: *$pointer usize,
                size_length: usize,
                level: *$pointer usize,
                level_length: usize,
                kind: *$pointer usize,
                kind_length: usize,
                name: *$pointer usize,
                name_length: usize,
                count: usize
                $(, $more: $type)*
            ) -> $answer;)*
        }
    };
}

declare! {
    fn reach_check(table: *const;) -> Answer;
    fn reach_find(table: *const; key_wanted: usize) -> Found;
    fn reach_step(
        table: *const;
        role: *const usize,
        role_length: usize,
        row: *const usize,
        row_length: usize,
        axis: usize,
        test: usize,
        test_name: usize,
        out_role: *mut usize,
        out_role_length: usize,
        out_row: *mut usize,
        out_row_length: usize
    ) -> Answer;
    fn reach_insert(
        table: *mut;
        parent_key: usize,
        p_key: *const usize,
        p_key_length: usize,
        p_size: *const usize,
        p_size_length: usize,
        p_level: *const usize,
        p_level_length: usize,
        p_kind: *const usize,
        p_kind_length: usize,
        p_name: *const usize,
        p_name_length: usize,
        p_count: usize
    ) -> Answer;
    fn reach_delete(table: *mut; key_wanted: usize) -> Answer;
    fn reach_rename(table: *mut; key_wanted: usize, new_name: usize) -> Answer;
    fn reach_batch(
        table: *mut;
        item_code: *const usize,
        item_code_length: usize,
        item_key: *const usize,
        item_key_length: usize,
        item_name: *const usize,
        item_name_length: usize
    ) -> Answer;
}

extern "C" {
    fn reach_version() -> usize;
    fn reach_carry(
        role: *const usize,
        role_length: usize,
        row: *const usize,
        row_length: usize,
        old_count: usize,
        first: usize,
        moved: i64,
        out_role: *mut usize,
        out_role_length: usize,
        out_row: *mut usize,
        out_row_length: usize,
    ) -> Answer;
}

/// Calls an exported function with the columns and the count of a table, then with the rest.
macro_rules! call {
    ($function:ident, $table:expr, $pointer:ident $(, $more:expr)*) => {
        // SAFETY: each pointer and length come from one slice, which stays lent during the call;
        // a slice whose pointer is passed as `*mut` is lent to this call alone.
        unsafe {
            $function(
                $table.key.$pointer(),
                $table.key.len(),
                $table.size.$pointer(),
                $table.size.len(),
                $table.level.$pointer(),
                $table.level.len(),
                $table.kind.$pointer(),
                $table.kind.len(),
                $table.name.$pointer(),
                $table.name.len(),
                $table.count
                $(, $more)*
            )
        }
    };
}

/// The version of the library that is linked, which is this wrapper's own,
/// [`VERSION`](crate::codes::VERSION), unless the two come from two releases.
pub fn version() -> usize {
    // SAFETY: the function takes nothing and reads nothing.
    unsafe { reach_version() }
}

/// Checks a table: refusals 1 and 2.
pub fn check(table: Table<'_>) -> Answer {
    call!(reach_check, table, as_ptr)
}

/// Finds the row of a key, with its level and its parent's row: refusals 1, 2 and 9.
pub fn find(table: Table<'_>, key_wanted: usize) -> Found {
    call!(reach_find, table, as_ptr, key_wanted)
}

/// Takes a step with an axis code, a test code and a name: refusals 1 to 8.
pub fn step(
    table: Table<'_>,
    pairs: Pairs<'_>,
    axis: usize,
    test: usize,
    test_name: usize,
    results: Results<'_>,
) -> Answer {
    call!(
        reach_step,
        table,
        as_ptr,
        pairs.role.as_ptr(),
        pairs.role.len(),
        pairs.row.as_ptr(),
        pairs.row.len(),
        axis,
        test,
        test_name,
        results.role.as_mut_ptr(),
        results.role.len(),
        results.row.as_mut_ptr(),
        results.row.len()
    )
}

/// Makes a piece the last child of the row with the key `parent_key`: refusals 1, 2 and 9 to 14.
pub fn insert(table: &mut TableMut<'_>, parent_key: usize, piece: Table<'_>) -> Answer {
    call!(
        reach_insert,
        table,
        as_mut_ptr,
        parent_key,
        piece.key.as_ptr(),
        piece.key.len(),
        piece.size.as_ptr(),
        piece.size.len(),
        piece.level.as_ptr(),
        piece.level.len(),
        piece.kind.as_ptr(),
        piece.kind.len(),
        piece.name.as_ptr(),
        piece.name.len(),
        piece.count
    )
}

/// Deletes the row with the key and its descendants: refusals 1, 2, 9 and 15.
pub fn delete(table: &mut TableMut<'_>, key_wanted: usize) -> Answer {
    call!(reach_delete, table, as_mut_ptr, key_wanted)
}

/// Gives the row with the key another name: refusals 1, 2, 9 and 16.
pub fn rename(table: &mut TableMut<'_>, key_wanted: usize, new_name: usize) -> Answer {
    call!(reach_rename, table, as_mut_ptr, key_wanted, new_name)
}

/// Deletes and renames by a list of items, up to the first that is refused: refusals 1, 2 and 18,
/// then those of the items, 9, 15 and 16. Answers on refusals too how many items were done, and the
/// count then.
pub fn batch(table: &mut TableMut<'_>, items: Items<'_>) -> Answer {
    call!(
        reach_batch,
        table,
        as_mut_ptr,
        items.code.as_ptr(),
        items.code.len(),
        items.key.as_ptr(),
        items.key.len(),
        items.name.as_ptr(),
        items.name.len()
    )
}

/// Carries pairs over an edit of a table that had `old_count` rows, by the first moved row and the
/// move that it answered: refusals 1, 3, 4, 5, 17 and 8, in this order.
pub fn carry(
    pairs: Pairs<'_>,
    old_count: usize,
    first: usize,
    moved: i64,
    results: Results<'_>,
) -> Answer {
    // SAFETY: each pointer and length come from one slice, which stays lent during the call; the
    // result columns are lent to this call alone.
    unsafe {
        reach_carry(
            pairs.role.as_ptr(),
            pairs.role.len(),
            pairs.row.as_ptr(),
            pairs.row.len(),
            old_count,
            first,
            moved,
            results.role.as_mut_ptr(),
            results.role.len(),
            results.row.as_mut_ptr(),
            results.row.len(),
        )
    }
}
