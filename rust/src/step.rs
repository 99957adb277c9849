//! One location step for many roles at once.

use crate::{boundary, codes};
use crate::{Refusal, Table};

/// Pairs of role and row: each says that a role holds a row. They ascend by role, then row; in a
/// step a pair that comes twice counts once.
#[derive(Clone, Copy, Debug, PartialEq, Eq)]
pub struct Pairs<'a> {
    /// The role of each pair.
    pub role: &'a [usize],
    /// The row of each pair.
    pub row: &'a [usize],
}

/// The two columns that a step writes its results to, or a carry its new list, from place 0 on.
/// They need not be equally long: the shorter one says how many results there is room for.
#[derive(Debug, PartialEq, Eq)]
pub struct Results<'a> {
    /// The role of each result.
    pub role: &'a mut [usize],
    /// The row of each result.
    pub row: &'a mut [usize],
}

/// What an accepted step answers.
#[derive(Clone, Copy, Debug, PartialEq, Eq)]
#[non_exhaustive]
pub struct Stepped {
    /// The number of results.
    pub results: usize,
    /// The kept count: how many distinct pairs remain when redundant ones are dropped, as
    /// [`Table`] says.
    pub kept: usize,
}

/// Which way a step goes from a row. No axis leaves the tree of that row: what is before or after it
/// in another farm is never a result. A code of another number can be posed to
/// [`boundary::step`].
#[derive(Clone, Copy, Debug, PartialEq, Eq, Hash)]
#[non_exhaustive]
#[repr(usize)]
pub enum Axis {
    /// 1: the row itself.
    Itself = codes::AXIS_SELF,
    /// 2: the rows whose parent it is.
    Child = codes::AXIS_CHILD,
    /// 3: its children, their children, and so on.
    Descendant = codes::AXIS_DESCENDANT,
    /// 4: the row itself and its descendants.
    DescendantOrSelf = codes::AXIS_DESCENDANT_OR_SELF,
    /// 5: its parent; a root has none.
    Parent = codes::AXIS_PARENT,
    /// 6: its parent, the parent of that one, and so on.
    Ancestor = codes::AXIS_ANCESTOR,
    /// 7: the row itself and its ancestors.
    AncestorOrSelf = codes::AXIS_ANCESTOR_OR_SELF,
    /// 8: the rows after it in its tree that are not its descendants.
    Following = codes::AXIS_FOLLOWING,
    /// 9: the rows before it in its tree that are not its ancestors.
    Preceding = codes::AXIS_PRECEDING,
    /// 10: the later rows with the same parent; a root has no siblings.
    FollowingSibling = codes::AXIS_FOLLOWING_SIBLING,
    /// 11: the earlier rows with the same parent; a root has no siblings.
    PrecedingSibling = codes::AXIS_PRECEDING_SIBLING,
}

impl Axis {
    /// All axes, by ascending code.
    pub const ALL: &'static [Axis] = &[
        Axis::Itself,
        Axis::Child,
        Axis::Descendant,
        Axis::DescendantOrSelf,
        Axis::Parent,
        Axis::Ancestor,
        Axis::AncestorOrSelf,
        Axis::Following,
        Axis::Preceding,
        Axis::FollowingSibling,
        Axis::PrecedingSibling,
    ];

    /// The axis code, 1 to 11.
    pub fn code(self) -> usize {
        self as usize
    }
}

/// Which rows on the axis are results. A code of another number, or a name that doesn't fit, can
/// be posed to [`boundary::step`].
#[derive(Clone, Copy, Debug, PartialEq, Eq, Hash)]
#[non_exhaustive]
pub enum Test {
    /// 0: every row.
    AnyNode,
    /// 1: every element.
    AnyElement,
    /// 2: the elements of this name, which is not 0.
    Element(usize),
    /// 3: every text.
    Text,
    /// 4: every comment.
    Comment,
    /// 5: every processing instruction.
    AnyInstruction,
    /// 6: the processing instructions of this name, which is not 0.
    Instruction(usize),
    /// 7: every document.
    Document,
}

impl Test {
    /// The test code, 0 to 7.
    pub fn code(self) -> usize {
        match self {
            Test::AnyNode => codes::TEST_ANY_NODE,
            Test::AnyElement => codes::TEST_ANY_ELEMENT,
            Test::Element(_) => codes::TEST_NAMED_ELEMENT,
            Test::Text => codes::TEST_TEXT,
            Test::Comment => codes::TEST_COMMENT,
            Test::AnyInstruction => codes::TEST_ANY_INSTRUCTION,
            Test::Instruction(_) => codes::TEST_NAMED_INSTRUCTION,
            Test::Document => codes::TEST_DOCUMENT,
        }
    }

    /// The name that goes with the code; 0 where there is none.
    pub fn name(self) -> usize {
        match self {
            Test::Element(name) | Test::Instruction(name) => name,
            _ => 0,
        }
    }
}

impl Table<'_> {
    /// Takes a step: for each role, the rows on the axis of one of its rows that pass the test.
    /// Results ascend by role, then row; places beyond them stay as they are.
    ///
    /// ```
    /// use reach::{farm, Axis, Pairs, Refusal, Results, Test};
    ///
    /// // Role 5 holds the first turbine and one of its blades, role 7 the second turbine.
    /// let pairs = Pairs { role: &[5, 5, 7], row: &[1, 2, 6] };
    /// let (mut role, mut row) = ([0; 4], [0; 4]);
    /// let results = Results { role: &mut role, row: &mut row };
    ///
    /// // Which setpoints (name 4) do they reach?
    /// let stepped = farm::table().step(pairs, Axis::Descendant, Test::Element(4), results)?;
    /// assert_eq!((stepped.results, stepped.kept), (3, 2));
    /// assert_eq!((role, row), ([5, 5, 7, 0], [3, 5, 8, 0]));
    ///
    /// // With too little room nothing is written, and the refusal says how much is needed.
    /// let short = Results { role: &mut role[..2], row: &mut row[..2] };
    /// let stepped = farm::table().step(pairs, Axis::Descendant, Test::Element(4), short);
    /// assert_eq!(stepped, Err(Refusal::TooManyResults { results: 3 }));
    /// # Ok::<(), Refusal>(())
    /// ```
    ///
    /// # Errors
    ///
    /// [`Refusal::BadCount`] to [`Refusal::TooManyResults`], numbers 1 to 8; of number 7 only
    /// the name 0 can occur here, and number 6 can't.
    pub fn step(
        self,
        pairs: Pairs<'_>,
        axis: Axis,
        test: Test,
        results: Results<'_>,
    ) -> Result<Stepped, Refusal> {
        boundary::step(self, pairs, axis.code(), test.code(), test.name(), results)
            .accepted()
            .map(|answer| Stepped { results: answer.first, kept: answer.second })
    }
}
