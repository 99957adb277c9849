//! What a call answers.

/// An answer, but for that of a find: a refusal with its place, or the numbers of an accepted call.
#[derive(Clone, Copy, Debug, Default, PartialEq, Eq)]
pub struct Answer {
    /// The refusal's number, or 0 where the call is accepted.
    pub refusal: usize,
    /// The refusal's place.
    pub place: usize,
    /// Step: the number of results. Edits: the new count. Carry: the length of the new list. Batch:
    /// how many items were done, on a refusal too.
    pub first: usize,
    /// Step: the kept count. Edits: the first moved row, in old numbering. Batch: the count then,
    /// on a refusal too.
    pub second: usize,
    /// Edits: by how many rows it moved, negative for a deletion.
    pub moved: i64,
}

/// The answer of a find: a refusal with its place, or where the row of the key stands.
#[derive(Clone, Copy, Debug, Default, PartialEq, Eq)]
pub struct Found {
    /// The refusal's number, or 0 where the call is accepted.
    pub refusal: usize,
    /// The refusal's place.
    pub place: usize,
    /// The row of the key.
    pub row: usize,
    /// Its level.
    pub level: usize,
    /// Its parent's row, or -1 for a root.
    pub parent: i64,
}

/// Why a call is refused: the number and the one place.
#[derive(Clone, Copy, Debug)]
pub(crate) struct Refused {
    pub number: usize,
    pub place: usize,
}

impl Refused {
    /// On a refusal every number but these two is 0; a batch adds how far it came.
    pub fn answer(self) -> Answer {
        Answer { refusal: self.number, place: self.place, ..Answer::default() }
    }

    /// The same as the answer of a find.
    pub fn found(self) -> Found {
        Found { refusal: self.number, place: self.place, ..Found::default() }
    }
}
