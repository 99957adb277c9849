//! Which pairs of edits came up, within the conditions and outside them.

use crate::case::Call;
use crate::tally::at_least;
use std::fmt;

/// How often each of the nine pairs of edits must come up, edits of two trees, and a root deleted.
const LEAST_OF_EACH: u64 = 2_000;
/// How many pairs outside each condition must be refused or differ, so that it is not idle.
const LEAST_OUTSIDE: u64 = 200;

/// Why a pair of accepted edits lies outside the conditions.
#[derive(Clone, Copy)]
pub enum Outside {
    SameRow,
    OneAboveOther,
    RootsDeleted,
    KeyInBoth,
    NoRoomForBoth,
}

/// The cases of `Outside` in words, in their order.
const OUTSIDE_NAMES: [&str; 5] = [
    "the same row",
    "one above the other",
    "two roots deleted",
    "a key in both",
    "no room for both",
];

/// What became of the pairs outside the conditions.
#[derive(Clone, Copy, Default)]
struct Fate {
    refused: u64,
    differed: u64,
    same: u64,
}

/// What came up.
#[derive(Default)]
pub struct Pairs {
    within: [[u64; 3]; 3],
    /// How many of them edit two trees, and how many delete a root.
    in_two_trees: u64,
    with_root_deleted: u64,
    outside: [Fate; 5],
}

/// Insertion, deletion, rename.
fn kind_of(edit: &Call) -> usize {
    match edit {
        Call::Insert(_) => 0,
        Call::Delete { .. } => 1,
        _ => 2,
    }
}

impl Fate {
    fn add(&mut self, same: Option<bool>) {
        match same {
            None => self.refused += 1,
            Some(false) => self.differed += 1,
            Some(true) => self.same += 1,
        }
    }
}

impl Pairs {
    /// Counts a pair within the conditions, and whether it edits two trees or deletes a root.
    pub fn add_within(&mut self, [one, other]: &[Call; 2], two_trees: bool, root_deleted: bool) {
        self.within[kind_of(one)][kind_of(other)] += 1;
        self.in_two_trees += u64::from(two_trees);
        self.with_root_deleted += u64::from(root_deleted);
    }

    /// Counts a pair outside a condition, and whether both orders, if accepted, gave the same.
    pub fn add_outside(&mut self, outside: Outside, same: Option<bool>) {
        self.outside[outside as usize].add(same);
    }

    /// Says which pairs of edits came up less often than they must.
    pub fn demand(&self) -> Result<(), String> {
        for times in self.within.iter().flatten() {
            at_least("a pair of edits", *times, LEAST_OF_EACH)?;
        }
        at_least("a pair of edits in two trees", self.in_two_trees, LEAST_OF_EACH)?;
        at_least("a pair with a root deleted", self.with_root_deleted, LEAST_OF_EACH)?;
        for (name, fate) in OUTSIDE_NAMES.iter().zip(&self.outside) {
            let what = format!("a pair outside a condition, refused or other ({name})");
            at_least(&what, fate.refused + fate.differed, LEAST_OUTSIDE)?;
        }
        Ok(())
    }
}

impl fmt::Display for Pairs {
    fn fmt(&self, out: &mut fmt::Formatter<'_>) -> fmt::Result {
        writeln!(out, "pairs of edits within the conditions, the same in both orders:")?;
        writeln!(out, "{:>12}{:>11}{:>11}{:>11}", "first", "insert", "delete", "rename")?;
        for (name, times) in ["insert", "delete", "rename"].iter().zip(&self.within) {
            writeln!(out, "{name:>12}{:>11}{:>11}{:>11}", times[0], times[1], times[2])?;
        }
        writeln!(out, "{:>12} of them in two trees", self.in_two_trees)?;
        writeln!(out, "{:>12} of them with a root deleted", self.with_root_deleted)?;
        writeln!(out, "pairs outside them, each edit accepted by itself:")?;
        writeln!(out, "{:>22}{:>11}{:>11}{:>11}", "", "refused", "differed", "the same")?;
        for (name, fate) in OUTSIDE_NAMES.iter().zip(&self.outside) {
            writeln!(out, "{name:>22}{:>11}{:>11}{:>11}", fate.refused, fate.differed, fate.same)?;
        }
        Ok(())
    }
}
