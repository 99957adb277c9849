//! Runs of siblings that lie inside each other, listed in ascending order.

use crate::sink::Sink;
use crate::LEVELS;

/// A stack of lanes, each with the next sibling to list and the last row it may be. An inner
/// lane ends before the next sibling of the lane around it, so only the innermost one moves.
pub(crate) struct Lanes {
    lane: [(usize, usize); LEVELS],
    depth: usize,
}

impl Lanes {
    #[inline(always)]
    pub fn new() -> Lanes {
        Lanes { lane: [(0, 0); LEVELS], depth: 0 }
    }

    /// Opens an innermost lane, unless it has nothing to list.
    #[inline(always)]
    pub fn open(&mut self, next: usize, last: usize) {
        if next <= last {
            self.lane[self.depth] = (next, last);
            self.depth += 1;
        }
    }

    /// Lists what comes up to and with the row.
    #[inline(always)]
    pub fn advance(&mut self, size: &[usize], row: usize, sink: &mut impl Sink) {
        while self.depth > 0 {
            let (mut next, last) = self.lane[self.depth - 1];
            let stop = row.min(last);
            while next <= stop {
                sink.one(next);
                next += size[next] + 1;
            }
            if next <= last {
                self.lane[self.depth - 1].0 = next;
                return;
            }
            self.depth -= 1;
        }
    }

    /// Lists all the rest.
    #[inline(always)]
    pub fn finish(&mut self, size: &[usize], sink: &mut impl Sink) {
        self.advance(size, usize::MAX, sink);
    }

    /// Whether the innermost lane comes to this row next.
    #[inline(always)]
    pub fn goes_on_at(&self, row: usize) -> bool {
        self.depth > 0 && self.lane[self.depth - 1].0 == row
    }
}
