//! The numbers of the boundary by name: kinds, axes, tests, items, refusals, limits and the
//! version. They are those of `include/reach.h` without the prefix `REACH_`. The kinds are what a
//! table's kind column holds, and the codes of items what the code column of
//! [`Items`](crate::Items) holds; the other codes are for [`boundary`](crate::boundary), since the
//! safe functions take an [`Axis`](crate::Axis) and a [`Test`](crate::Test) and answer a
//! [`Refusal`](crate::Refusal).
//!
//! ```
//! use reach::codes::{KIND_COMMENT, KIND_ELEMENT};
//! use reach::Table;
//!
//! // An element of the name 1 with a comment below it.
//! let table = Table {
//!     key: &[10, 40],
//!     size: &[1, 0],
//!     level: &[0, 1],
//!     kind: &[KIND_ELEMENT, KIND_COMMENT],
//!     name: &[1, 0],
//!     count: 2,
//! };
//! assert_eq!(table.check(), Ok(()));
//! ```

/// Constants, and for the test below the list of them.
macro_rules! numbers {
    ($($(#[$words:meta])* $name:ident = $number:literal,)*) => {
        $($(#[$words])* pub const $name: usize = $number;)*

        #[cfg(test)]
        const ALL: &[(&str, usize)] = &[$((stringify!($name), $number)),*];
    };
}

numbers! {
    /// The version of this wrapper: 0.5.0, as the major number times 10,000, the minor times 100 and
    /// the third together. [`boundary::version`](crate::boundary::version) answers the library's.
    VERSION = 500,

    /// The most rows that a table can have in use.
    MOST_ROWS = 4_096,
    /// The deepest level that a row can have.
    MOST_LEVEL = 63,
    /// The most pairs that a list can have.
    MOST_PAIRS = 4_096,
    /// The most items that a batch can have.
    MOST_ITEMS = 256,

    /// A document, which only a root can be.
    KIND_DOCUMENT = 0,
    /// An element, which has a name.
    KIND_ELEMENT = 1,
    /// A text.
    KIND_TEXT = 2,
    /// A comment.
    KIND_COMMENT = 3,
    /// A processing instruction, which has a name.
    KIND_INSTRUCTION = 4,

    /// [`Axis::Itself`](crate::Axis::Itself).
    AXIS_SELF = 1,
    /// [`Axis::Child`](crate::Axis::Child).
    AXIS_CHILD = 2,
    /// [`Axis::Descendant`](crate::Axis::Descendant).
    AXIS_DESCENDANT = 3,
    /// [`Axis::DescendantOrSelf`](crate::Axis::DescendantOrSelf).
    AXIS_DESCENDANT_OR_SELF = 4,
    /// [`Axis::Parent`](crate::Axis::Parent).
    AXIS_PARENT = 5,
    /// [`Axis::Ancestor`](crate::Axis::Ancestor).
    AXIS_ANCESTOR = 6,
    /// [`Axis::AncestorOrSelf`](crate::Axis::AncestorOrSelf).
    AXIS_ANCESTOR_OR_SELF = 7,
    /// [`Axis::Following`](crate::Axis::Following).
    AXIS_FOLLOWING = 8,
    /// [`Axis::Preceding`](crate::Axis::Preceding).
    AXIS_PRECEDING = 9,
    /// [`Axis::FollowingSibling`](crate::Axis::FollowingSibling).
    AXIS_FOLLOWING_SIBLING = 10,
    /// [`Axis::PrecedingSibling`](crate::Axis::PrecedingSibling).
    AXIS_PRECEDING_SIBLING = 11,

    /// [`Test::AnyNode`](crate::Test::AnyNode).
    TEST_ANY_NODE = 0,
    /// [`Test::AnyElement`](crate::Test::AnyElement).
    TEST_ANY_ELEMENT = 1,
    /// [`Test::Element`](crate::Test::Element).
    TEST_NAMED_ELEMENT = 2,
    /// [`Test::Text`](crate::Test::Text).
    TEST_TEXT = 3,
    /// [`Test::Comment`](crate::Test::Comment).
    TEST_COMMENT = 4,
    /// [`Test::AnyInstruction`](crate::Test::AnyInstruction).
    TEST_ANY_INSTRUCTION = 5,
    /// [`Test::Instruction`](crate::Test::Instruction).
    TEST_NAMED_INSTRUCTION = 6,
    /// [`Test::Document`](crate::Test::Document).
    TEST_DOCUMENT = 7,

    /// The item deletes the row of its key, as [`TableMut::delete`](crate::TableMut::delete) does.
    ITEM_DELETE = 1,
    /// The item renames it, as [`TableMut::rename`](crate::TableMut::rename) does.
    ITEM_RENAME = 2,

    /// [`Refusal::BadCount`](crate::Refusal::BadCount).
    REFUSED_BAD_COUNT = 1,
    /// [`Refusal::UnsoundRow`](crate::Refusal::UnsoundRow).
    REFUSED_UNSOUND_ROW = 2,
    /// [`Refusal::BadPairColumns`](crate::Refusal::BadPairColumns).
    REFUSED_BAD_PAIR_COLUMNS = 3,
    /// [`Refusal::PairOutOfOrder`](crate::Refusal::PairOutOfOrder).
    REFUSED_PAIR_OUT_OF_ORDER = 4,
    /// [`Refusal::PairOutsideTable`](crate::Refusal::PairOutsideTable).
    REFUSED_PAIR_OUTSIDE_TABLE = 5,
    /// [`Refusal::BadAxis`](crate::Refusal::BadAxis).
    REFUSED_BAD_AXIS = 6,
    /// [`Refusal::BadTest`](crate::Refusal::BadTest).
    REFUSED_BAD_TEST = 7,
    /// [`Refusal::TooManyResults`](crate::Refusal::TooManyResults).
    REFUSED_TOO_MANY_RESULTS = 8,
    /// [`Refusal::UnknownKey`](crate::Refusal::UnknownKey).
    REFUSED_UNKNOWN_KEY = 9,
    /// [`Refusal::BadPiece`](crate::Refusal::BadPiece).
    REFUSED_BAD_PIECE = 10,
    /// [`Refusal::NotAParent`](crate::Refusal::NotAParent).
    REFUSED_NOT_A_PARENT = 11,
    /// [`Refusal::TooDeep`](crate::Refusal::TooDeep).
    REFUSED_TOO_DEEP = 12,
    /// [`Refusal::KeyTaken`](crate::Refusal::KeyTaken).
    REFUSED_KEY_TAKEN = 13,
    /// [`Refusal::NoRoom`](crate::Refusal::NoRoom).
    REFUSED_NO_ROOM = 14,
    /// [`Refusal::DeletesRoot`](crate::Refusal::DeletesRoot).
    REFUSED_DELETES_ROOT = 15,
    /// [`Refusal::BadRename`](crate::Refusal::BadRename).
    REFUSED_BAD_RENAME = 16,
    /// [`Refusal::BadMove`](crate::Refusal::BadMove).
    REFUSED_BAD_MOVE = 17,
    /// The list of a batch is bad: [`Refusal::Unlisted`](crate::Refusal::Unlisted) with this number.
    REFUSED_BAD_LIST = 18,
}

#[cfg(test)]
mod tests {
    use super::{ALL, VERSION};
    use std::collections::BTreeMap;

    const HEADER: &str = include_str!("../../include/reach.h");
    const CHANGELOG: &str = include_str!("../../CHANGELOG.md");

    /// The name and the number of a line of the header that states one.
    fn stated(line: &str) -> Option<(&str, usize)> {
        let line = line.trim();
        let (name, number) = match line.strip_prefix("#define ") {
            Some(defined) => defined.split_once(' ')?,
            None => line.split_once(" = ")?,
        };
        let number = number.split([',', ' ']).next()?.parse().ok()?;
        Some((name.strip_prefix("REACH_")?, number))
    }

    #[test]
    fn the_header_has_the_same_names_and_numbers() {
        let header: BTreeMap<&str, usize> = HEADER.lines().filter_map(stated).collect();
        assert_eq!(header, ALL.iter().copied().collect());
    }

    #[test]
    fn one_version_is_stated_everywhere() {
        let words = env!("CARGO_PKG_VERSION").split('.').map(|word| word.parse::<usize>().unwrap());
        assert_eq!(words.fold(0, |number, word| number * 100 + word), VERSION);
        assert_eq!(crate::boundary::version(), VERSION);
        let newest = CHANGELOG.lines().find_map(|line| line.strip_prefix("## ")).unwrap();
        assert!(
            newest.starts_with(env!("CARGO_PKG_VERSION")),
            "the changelog starts with {newest}"
        );
    }
}
