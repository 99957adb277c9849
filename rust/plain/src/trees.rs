//! The trees of a table, and the contexts of a role tree by tree.

use crate::check::{Up, NONE};
use crate::MOST_ROWS;

/// How many rows are looked at together for a root among them.
const STRIDE: usize = 16;

/// The root of each row.
pub(crate) struct Trees<'a> {
    size: &'a [usize],
    root: [u16; MOST_ROWS],
}

impl<'a> Trees<'a> {
    /// One pass over all rows.
    pub fn new(size: &'a [usize], up: &Up) -> Self {
        let mut root = [0; MOST_ROWS];
        let strides = root.chunks_exact_mut(STRIDE).zip(up.chunks_exact(STRIDE));
        let mut own = 0;
        for (number, (slots, up)) in strides.enumerate().take(size.len().div_ceil(STRIDE)) {
            // A stride without a root is filled at once.
            if up.iter().fold(0, |most, &parent| parent.max(most)) < NONE {
                slots.fill(own);
                continue;
            }
            for (place, (slot, &parent)) in slots.iter_mut().zip(up).enumerate() {
                own = if parent == NONE { (number * STRIDE + place) as u16 } else { own };
                *slot = own;
            }
        }
        Trees { size, root }
    }

    #[inline(always)]
    pub fn root_of(&self, row: usize) -> usize {
        usize::from(self.root[row])
    }

    /// Takes the contexts of a role, which ascend, tree by tree, with the root and the row where
    /// the tree has ended, and answers how many trees hold some of them.
    #[inline(always)]
    pub fn each(&self, contexts: &[usize], mut take: impl FnMut(&[usize], usize, usize)) -> usize {
        let (mut rest, mut trees) = (contexts, 0);
        while let Some(&first) = rest.first() {
            let root = self.root_of(first);
            let end = root + self.size[root] + 1;
            let (own, later) = rest.split_at(how_many_before(rest, end));
            take(own, root, end);
            rest = later;
            trees += 1;
        }
        trees
    }
}

/// How many of the rows, which ascend, stand before the end: few of a small tree are found as fast
/// as many of a large one.
#[inline(always)]
fn how_many_before(rows: &[usize], end: usize) -> usize {
    let mut bound = 1;
    while bound < rows.len() && rows[bound] < end {
        bound *= 2;
    }
    if bound == 1 {
        return 1;
    }
    let passed = bound / 2;
    passed + rows[passed..rows.len().min(bound)].partition_point(|&row| row < end)
}
