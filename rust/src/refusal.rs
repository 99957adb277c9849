//! Why a call was refused.

use crate::codes;
use std::error::Error;
use std::fmt;

/// Why a call was refused: one of seventeen reasons, or one that this wrapper has no name for. Where
/// several apply, the one of the lowest number is given, but number 17 before number 8, and number
/// 18, a batch's, before those of its items; and every column that was lent is unchanged, but for
/// what the items of a batch before a refused one did. Later versions may have further reasons, so a
/// `match` needs an arm for the rest.
///
/// ```
/// use reach::Refusal;
///
/// let refusal = Refusal::UnsoundRow { row: 7 };
/// assert_eq!((refusal.number(), refusal.place()), (2, 7));
/// assert!(refusal.to_string().starts_with("row 7 of the table is not sound"));
/// ```
#[derive(Clone, Copy, Debug, PartialEq, Eq, Hash)]
#[non_exhaustive]
pub enum Refusal {
    /// 1: the count of rows is 0, above 4,096, or above the shortest table column. In a carry it is
    /// the count before the edit, and there is no table column.
    BadCount,
    /// 2: a row is not sound: see [`Table`](crate::Table).
    UnsoundRow {
        /// The least such row.
        row: usize,
    },
    /// 3: the two columns of pairs differ in length, or are longer than 4,096.
    BadPairColumns,
    /// 4: a pair is less than the one before it.
    PairOutOfOrder {
        /// The least such place among the pairs.
        place: usize,
    },
    /// 5: a pair names a row that is not in use; in a carry, that was not in use before the edit.
    PairOutsideTable {
        /// The least such place among the pairs.
        place: usize,
    },
    /// 6: the axis code is not 1 to 11.
    BadAxis,
    /// 7: the test code is not 0 to 7, or its name doesn't fit it.
    BadTest,
    /// 8: there are more results than the shorter result column holds.
    TooManyResults {
        /// The number of results; in a carry, the length of the new list.
        results: usize,
    },
    /// 9: no row in use has the key.
    UnknownKey,
    /// 10: the piece is not a sound table, or has several trees, or its first row is a document.
    BadPiece,
    /// 11: the row that was named as parent can't have children.
    NotAParent {
        /// That row.
        row: usize,
    },
    /// 12: a row of the piece would stand deeper than level 63.
    TooDeep,
    /// 13: a key of the piece is in the table already.
    KeyTaken {
        /// The least such row of the piece.
        piece_row: usize,
    },
    /// 14: the table has no room for the piece.
    NoRoom,
    /// 15: the row to delete is the only root.
    DeletesRoot,
    /// 16: the row to rename has no name, or the new name is 0.
    BadRename {
        /// The row to rename.
        row: usize,
    },
    /// 17: no edit answers these numbers: the first moved row is 0 or above the old count, or falls
    /// below 0 once the move is added, or the new count would lie outside 1 to 4,096.
    BadMove,
    /// A number that this wrapper has no name for, as a newer library may give.
    Unlisted {
        /// The refusal's number.
        number: usize,
        /// Its place, whatever that means for this number.
        place: usize,
    },
}

impl Refusal {
    /// The refusal that the library gives by number and place.
    pub fn from_number(number: usize, place: usize) -> Refusal {
        match number {
            codes::REFUSED_BAD_COUNT => Refusal::BadCount,
            codes::REFUSED_UNSOUND_ROW => Refusal::UnsoundRow { row: place },
            codes::REFUSED_BAD_PAIR_COLUMNS => Refusal::BadPairColumns,
            codes::REFUSED_PAIR_OUT_OF_ORDER => Refusal::PairOutOfOrder { place },
            codes::REFUSED_PAIR_OUTSIDE_TABLE => Refusal::PairOutsideTable { place },
            codes::REFUSED_BAD_AXIS => Refusal::BadAxis,
            codes::REFUSED_BAD_TEST => Refusal::BadTest,
            codes::REFUSED_TOO_MANY_RESULTS => Refusal::TooManyResults { results: place },
            codes::REFUSED_UNKNOWN_KEY => Refusal::UnknownKey,
            codes::REFUSED_BAD_PIECE => Refusal::BadPiece,
            codes::REFUSED_NOT_A_PARENT => Refusal::NotAParent { row: place },
            codes::REFUSED_TOO_DEEP => Refusal::TooDeep,
            codes::REFUSED_KEY_TAKEN => Refusal::KeyTaken { piece_row: place },
            codes::REFUSED_NO_ROOM => Refusal::NoRoom,
            codes::REFUSED_DELETES_ROOT => Refusal::DeletesRoot,
            codes::REFUSED_BAD_RENAME => Refusal::BadRename { row: place },
            codes::REFUSED_BAD_MOVE => Refusal::BadMove,
            _ => Refusal::Unlisted { number, place },
        }
    }

    /// The refusal's number: one of [`codes`] unless the refusal is unlisted.
    pub fn number(self) -> usize {
        match self {
            Refusal::BadCount => codes::REFUSED_BAD_COUNT,
            Refusal::UnsoundRow { .. } => codes::REFUSED_UNSOUND_ROW,
            Refusal::BadPairColumns => codes::REFUSED_BAD_PAIR_COLUMNS,
            Refusal::PairOutOfOrder { .. } => codes::REFUSED_PAIR_OUT_OF_ORDER,
            Refusal::PairOutsideTable { .. } => codes::REFUSED_PAIR_OUTSIDE_TABLE,
            Refusal::BadAxis => codes::REFUSED_BAD_AXIS,
            Refusal::BadTest => codes::REFUSED_BAD_TEST,
            Refusal::TooManyResults { .. } => codes::REFUSED_TOO_MANY_RESULTS,
            Refusal::UnknownKey => codes::REFUSED_UNKNOWN_KEY,
            Refusal::BadPiece => codes::REFUSED_BAD_PIECE,
            Refusal::NotAParent { .. } => codes::REFUSED_NOT_A_PARENT,
            Refusal::TooDeep => codes::REFUSED_TOO_DEEP,
            Refusal::KeyTaken { .. } => codes::REFUSED_KEY_TAKEN,
            Refusal::NoRoom => codes::REFUSED_NO_ROOM,
            Refusal::DeletesRoot => codes::REFUSED_DELETES_ROOT,
            Refusal::BadRename { .. } => codes::REFUSED_BAD_RENAME,
            Refusal::BadMove => codes::REFUSED_BAD_MOVE,
            Refusal::Unlisted { number, .. } => number,
        }
    }

    /// The refusal's place: a row, a place among the pairs, a number of results, or 0.
    pub fn place(self) -> usize {
        match self {
            Refusal::UnsoundRow { row }
            | Refusal::NotAParent { row }
            | Refusal::BadRename { row } => row,
            Refusal::PairOutOfOrder { place }
            | Refusal::PairOutsideTable { place }
            | Refusal::Unlisted { place, .. } => place,
            Refusal::TooManyResults { results } => results,
            Refusal::KeyTaken { piece_row } => piece_row,
            _ => 0,
        }
    }
}

impl fmt::Display for Refusal {
    fn fmt(&self, out: &mut fmt::Formatter<'_>) -> fmt::Result {
        match self {
            Refusal::BadCount => out.write_str(
                "the count of rows (before the edit, where pairs are carried) must be 1 to 4,096, \
                 and every table column must be that long",
            ),
            Refusal::UnsoundRow { row } => write!(
                out,
                "row {row} of the table is not sound: its level, size, kind, name or key breaks a rule"
            ),
            Refusal::BadPairColumns => out.write_str(
                "the role column and the row column must be equally long, at most 4,096 pairs",
            ),
            Refusal::PairOutOfOrder { place } => write!(
                out,
                "the pair at place {place} is less than the one before it: sort by role, then row"
            ),
            Refusal::PairOutsideTable { place } => write!(
                out,
                "the pair at place {place} names a row that the table doesn't have \
                 (before the edit, where pairs are carried)"
            ),
            Refusal::BadAxis => out.write_str("the axis code must be 1 to 11"),
            Refusal::BadTest => out.write_str(
                "the test code must be 0 to 7, with a name for tests 2 and 6 and without one else",
            ),
            Refusal::TooManyResults { results } => write!(
                out,
                "there are {results} results, more than the shorter result column holds; none was written"
            ),
            Refusal::UnknownKey => out.write_str("no row of the table has this key"),
            Refusal::BadPiece => out.write_str(
                "the piece to insert is not a sound table of one tree, or it starts with a document",
            ),
            Refusal::NotAParent { row } => write!(
                out,
                "row {row} can't have children: it is neither an element nor a document"
            ),
            Refusal::TooDeep => out.write_str("a row of the piece would stand deeper than level 63"),
            Refusal::KeyTaken { piece_row } => {
                write!(out, "the key of row {piece_row} of the piece is in the table already")
            }
            Refusal::NoRoom => out.write_str(
                "the piece doesn't fit: the table would pass 4,096 rows or its shortest column",
            ),
            Refusal::DeletesRoot => {
                out.write_str("the only root of the table can't be deleted: no row would be left")
            }
            Refusal::BadRename { row } => write!(
                out,
                "row {row} can't get this name: only elements and processing instructions have a name, other than 0"
            ),
            Refusal::BadMove => out.write_str(
                "these numbers are not what an edit of this table answers: its first moved row is \
                 1 to the old count, still at least 0 once the move is added, and the new count is \
                 1 to 4,096",
            ),
            Refusal::Unlisted { number, place } => write!(
                out,
                "the call was refused with number {number}, place {place}, which this wrapper has no \
                 name for: is the library newer?"
            ),
        }
    }
}

impl Error for Refusal {}

#[cfg(test)]
mod tests {
    use super::Refusal;
    use crate::boundary::Answer;

    #[test]
    fn numbers_and_places_come_back() {
        for number in 1..=17 {
            let refusal = Refusal::from_number(number, 3);
            assert_eq!(refusal.number(), number);
            let has_place = [2, 4, 5, 8, 11, 13, 16].contains(&number);
            assert_eq!(refusal.place(), if has_place { 3 } else { 0 });
            assert!(!matches!(refusal, Refusal::Unlisted { .. }));
            assert!(!refusal.to_string().is_empty());
        }
    }

    #[test]
    fn a_number_without_a_name_is_a_refusal_too() {
        for number in [0, 18, usize::MAX] {
            let refusal = Refusal::from_number(number, 3);
            assert_eq!(refusal, Refusal::Unlisted { number, place: 3 });
            assert_eq!((refusal.number(), refusal.place()), (number, 3));
            assert!(refusal.to_string().contains(&format!("number {number}, place 3")));
        }
        let newer = Answer { refusal: 18, place: 3, ..Answer::default() };
        assert_eq!(newer.accepted(), Err(Refusal::Unlisted { number: 18, place: 3 }));
    }
}
