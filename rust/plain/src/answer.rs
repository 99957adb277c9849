//! What a call answers.

/// An answer in the shape of the library's boundary, but for that of a find.
#[repr(C)]
#[derive(Clone, Copy, Debug, Default, PartialEq, Eq)]
pub struct Answer {
    /// The refusal's number, or 0 where the call is accepted.
    pub refusal: usize,
    /// The refusal's place.
    pub place: usize,
    /// Step: the number of results. Edits: the new count. Carry: the length of the new list. Batch:
    /// how many items were done, on a refusal too.
    pub first: usize,
    /// Step: the kept count. Edits: the first moved row, in old numbering. Batch: the count then,
    /// on a refusal too.
    pub second: usize,
    /// Edits: by how many rows it moved, negative for a deletion.
    pub moved: i64,
}

impl Answer {
    pub(crate) fn refused(number: usize, place: usize) -> Answer {
        Answer { refusal: number, place, ..Answer::default() }
    }
}

/// The answer of a find, in the shape of the library's boundary.
#[repr(C)]
#[derive(Clone, Copy, Debug, Default, PartialEq, Eq)]
pub struct Found {
    /// The refusal's number, or 0 where the call is accepted.
    pub refusal: usize,
    /// The refusal's place.
    pub place: usize,
    /// The row of the key.
    pub row: usize,
    /// Its level.
    pub level: usize,
    /// Its parent's row, or -1 for a root.
    pub parent: i64,
}

impl Found {
    /// The answer of a find that gets the refusal of another call.
    pub(crate) fn refused(Answer { refusal, place, .. }: Answer) -> Found {
        Found { refusal, place, ..Found::default() }
    }
}
