//! The node test, turned into a wanted kind and a wanted name before any row is looked at.

use crate::table::Rows;
use std::ops::Range;

/// Which rows pass.
pub(crate) trait Filter: Copy {
    /// Every row passes, so that whole runs can be taken without looking.
    const EVERY: bool;

    fn passes(&self, row: usize) -> bool;

    /// Those of a run of rows that pass.
    fn passing(&self, rows: Range<usize>) -> impl Iterator<Item = usize>;
}

/// The node test of a call.
pub(crate) enum Test {
    Any,
    Kind(usize),
    Named(usize, usize),
}

impl Test {
    /// The test, unless the code is unknown or the name doesn't fit it.
    pub fn of(code: usize, name: usize) -> Option<Test> {
        let test = match code {
            0 => Test::Any,
            1 => Test::Kind(1),
            2 => Test::Named(1, name),
            3 => Test::Kind(2),
            4 => Test::Kind(3),
            5 => Test::Kind(4),
            6 => Test::Named(4, name),
            7 => Test::Kind(0),
            _ => return None,
        };
        let needs_name = matches!(test, Test::Named(..));
        (needs_name == (name != 0)).then_some(test)
    }
}

#[derive(Clone, Copy)]
pub(crate) struct Any;

impl Filter for Any {
    const EVERY: bool = true;

    #[inline(always)]
    fn passes(&self, _: usize) -> bool {
        true
    }

    #[inline(always)]
    fn passing(&self, rows: Range<usize>) -> impl Iterator<Item = usize> {
        rows
    }
}

#[derive(Clone, Copy)]
pub(crate) struct OfKind<'a> {
    kinds: &'a [usize],
    wanted: usize,
}

impl<'a> OfKind<'a> {
    pub fn new(rows: &Rows<'a>, wanted: usize) -> Self {
        OfKind { kinds: rows.kind, wanted }
    }
}

impl Filter for OfKind<'_> {
    const EVERY: bool = false;

    #[inline(always)]
    fn passes(&self, row: usize) -> bool {
        self.kinds[row] == self.wanted
    }

    #[inline(always)]
    fn passing(&self, rows: Range<usize>) -> impl Iterator<Item = usize> {
        let kinds = self.kinds[rows.clone()].iter();
        rows.zip(kinds).filter(|(_, kind)| **kind == self.wanted).map(|(row, _)| row)
    }
}

#[derive(Clone, Copy)]
pub(crate) struct Named<'a> {
    kinds: &'a [usize],
    names: &'a [usize],
    kind: usize,
    wanted: usize,
}

impl<'a> Named<'a> {
    pub fn new(rows: &Rows<'a>, kind: usize, wanted: usize) -> Self {
        Named { kinds: rows.kind, names: rows.name, kind, wanted }
    }
}

impl Filter for Named<'_> {
    const EVERY: bool = false;

    #[inline(always)]
    fn passes(&self, row: usize) -> bool {
        self.names[row] == self.wanted && self.kinds[row] == self.kind
    }

    #[inline(always)]
    fn passing(&self, rows: Range<usize>) -> impl Iterator<Item = usize> {
        let names = self.names[rows.clone()].iter();
        let columns = names.zip(&self.kinds[rows.clone()]);
        let passes = |name: &usize, kind: &usize| *name == self.wanted && *kind == self.kind;
        rows.zip(columns).filter(move |(_, (name, kind))| passes(name, kind)).map(|(row, _)| row)
    }
}
