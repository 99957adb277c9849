//! A line for every tenth of a long run.

use crate::options::Part;

/// How far a part has come.
pub struct Progress {
    part: Part,
    total: u64,
    done: u64,
}

impl Progress {
    pub fn new(part: Part, total: u64) -> Progress {
        Progress { part, total, done: 0 }
    }

    /// One more call is done.
    pub fn advance(&mut self) {
        let tenths = |done: u64| done * 10 / self.total;
        let before = tenths(self.done);
        self.done += 1;
        if tenths(self.done) > before {
            println!("{}: {}% of {}", self.part.title(), tenths(self.done) * 10, self.total);
        }
    }
}
