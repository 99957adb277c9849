//! The rows of one role on each axis, ascending, and its kept count. The work is that of the
//! contexts and the results, never of the whole table; the roots of all rows, where axes 6 to 9
//! end, are found once for all roles.

use crate::check::{parent, Up};
use crate::lanes::Lanes;
use crate::pairs::Pairs;
use crate::row_set::RowSet;
use crate::sink::Sink;
use crate::trees::Trees;
use crate::{LEVELS, MOST_ROWS};

/// What the axes are read from.
pub(crate) struct Axes<'a> {
    size: &'a [usize],
    up: &'a Up,
    lanes: Lanes,
    parents: RowSet,
    /// For each row among the parents, the last context below it.
    last_below: [u16; MOST_ROWS],
}

impl<'a> Axes<'a> {
    pub fn new(size: &'a [usize], up: &'a Up) -> Self {
        let (lanes, parents) = (Lanes::new(), RowSet::new());
        Axes { size, up, lanes, parents, last_below: [0; MOST_ROWS] }
    }

    /// Lists the axis of every role and answers the kept count.
    pub fn list(&mut self, axis: usize, pairs: &Pairs<'_>, sink: &mut impl Sink) -> usize {
        match axis {
            1 => each_role(pairs, sink, |contexts, sink| self.own(contexts, sink)),
            2 => each_role(pairs, sink, |contexts, sink| self.children(contexts, sink)),
            3 => each_role(pairs, sink, |contexts, sink| self.descendants(contexts, 1, sink)),
            4 => each_role(pairs, sink, |contexts, sink| self.descendants(contexts, 0, sink)),
            5 => each_role(pairs, sink, |contexts, sink| self.parents(contexts, sink)),
            6..=9 => self.list_in_trees(axis, pairs, sink),
            10 => each_role(pairs, sink, |contexts, sink| self.following_siblings(contexts, sink)),
            _ => each_role(pairs, sink, |contexts, sink| self.preceding_siblings(contexts, sink)),
        }
    }

    /// The same for the axes that go on to the ends of a tree.
    fn list_in_trees(&self, axis: usize, pairs: &Pairs<'_>, sink: &mut impl Sink) -> usize {
        let trees = &Trees::new(self.size, self.up);
        match axis {
            6 => each_role(pairs, sink, |rows, sink| self.ancestors::<false>(trees, rows, sink)),
            7 => each_role(pairs, sink, |rows, sink| self.ancestors::<true>(trees, rows, sink)),
            8 => each_role(pairs, sink, |rows, sink| self.following(trees, rows, sink)),
            _ => each_role(pairs, sink, |rows, sink| self.preceding(trees, rows, sink)),
        }
    }

    fn own(&self, contexts: &[usize], sink: &mut impl Sink) -> usize {
        distinct(contexts).inspect(|&row| sink.one(row)).count()
    }

    fn children(&mut self, contexts: &[usize], sink: &mut impl Sink) -> usize {
        let mut kept = 0;
        for context in distinct(contexts) {
            self.lanes.advance(self.size, context, sink);
            self.lanes.open(context + 1, context + self.size[context]);
            kept += 1;
        }
        self.lanes.finish(self.size, sink);
        kept
    }

    /// A context below an earlier one is covered by it. `first` is 0 for "or self", else 1.
    fn descendants(&self, contexts: &[usize], first: usize, sink: &mut impl Sink) -> usize {
        let (mut covered, mut kept) = (0, 0);
        for &context in contexts {
            if context >= covered {
                covered = context + self.size[context] + 1;
                sink.range(context + first..covered);
                kept += 1;
            }
        }
        kept
    }

    fn parents(&mut self, contexts: &[usize], sink: &mut impl Sink) -> usize {
        let mut kept = 0;
        for context in distinct(contexts) {
            if let Some(parent) = parent(self.up, context) {
                self.parents.add(parent);
            }
            kept += 1;
        }
        self.parents.drain(|row| sink.one(row));
        kept
    }

    /// An ancestor that the context before doesn't have is greater than that context, so each
    /// way up ends there, or at the root.
    fn ancestors<const OR_SELF: bool>(
        &self,
        trees: &Trees<'_>,
        contexts: &[usize],
        sink: &mut impl Sink,
    ) -> usize {
        let mut path = [0u16; LEVELS];
        let (mut floor, mut end, mut kept) = (0, 0, 0);
        for context in distinct(contexts) {
            // Without a context below it the one before stays.
            kept += usize::from(context >= end);
            let (mut length, mut row, root) = (0, context, trees.root_of(context));
            while row > root {
                let parent = self.up[row];
                row = usize::from(parent);
                if row < floor {
                    break;
                }
                path[length % LEVELS] = parent;
                length += 1;
            }
            path[..length].iter().rev().for_each(|&row| sink.one(usize::from(row)));
            if OR_SELF {
                sink.one(context);
            }
            floor = context + usize::from(OR_SELF);
            end = context + self.size[context] + 1;
        }
        kept
    }

    /// In each tree all rows from where its contexts first end.
    fn following(&self, trees: &Trees<'_>, contexts: &[usize], sink: &mut impl Sink) -> usize {
        trees.each(contexts, |contexts, _, end| {
            let mut first = end;
            for &context in contexts {
                // Contexts inside each other end earlier and earlier, any other after them.
                if context >= first {
                    break;
                }
                first = context + self.size[context] + 1;
            }
            if first < end {
                sink.range(first..end);
            }
        })
    }

    /// In each tree all rows before its last context, but for the way up from it.
    fn preceding(&self, trees: &Trees<'_>, contexts: &[usize], sink: &mut impl Sink) -> usize {
        let mut path = [0u16; LEVELS];
        trees.each(contexts, |contexts, root, _| {
            let (mut length, mut row) = (0, contexts[contexts.len() - 1]);
            while row > root {
                path[length % LEVELS] = row as u16;
                length += 1;
                row = usize::from(self.up[row]);
            }
            for &below in path[..length].iter().rev() {
                sink.range(row + 1..usize::from(below));
                row = usize::from(below);
            }
        })
    }

    fn following_siblings(&mut self, contexts: &[usize], sink: &mut impl Sink) -> usize {
        let mut kept = 0;
        for context in distinct(contexts) {
            kept += 1;
            self.lanes.advance(self.size, context, sink);
            let Some(parent) = parent(self.up, context) else {
                continue;
            };
            let next = context + self.size[context] + 1;
            // A context after its sibling, which was listed just now, goes on with that lane.
            if !self.lanes.goes_on_at(next) {
                self.lanes.open(next, parent + self.size[parent]);
            }
        }
        self.lanes.finish(self.size, sink);
        kept
    }

    fn preceding_siblings(&mut self, contexts: &[usize], sink: &mut impl Sink) -> usize {
        let mut kept = 0;
        for context in distinct(contexts) {
            kept += 1;
            if let Some(parent) = parent(self.up, context) {
                self.parents.add(parent);
                self.last_below[parent] = context as u16;
            }
        }
        let Axes { size, lanes, parents, last_below, .. } = self;
        parents.drain(|parent| {
            lanes.advance(size, parent, sink);
            lanes.open(parent + 1, usize::from(last_below[parent]) - 1);
        });
        lanes.finish(size, sink);
        kept
    }
}

/// Lists one role after the other and answers the sum of their kept counts. The contexts of a
/// role ascend and may be equal.
#[inline(always)]
fn each_role<S: Sink>(
    pairs: &Pairs<'_>,
    sink: &mut S,
    mut list: impl FnMut(&[usize], &mut S) -> usize,
) -> usize {
    let mut kept = 0;
    for (role, contexts) in pairs.by_role() {
        sink.begin_role(role);
        kept += list(contexts, sink);
    }
    kept
}

/// The contexts, each once.
fn distinct(contexts: &[usize]) -> impl Iterator<Item = usize> + '_ {
    let mut before = usize::MAX;
    contexts.iter().copied().filter(move |&row| std::mem::replace(&mut before, row) != row)
}
