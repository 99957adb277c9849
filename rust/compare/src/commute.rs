//! Two edits in both orders: within the conditions of the rules both orders are accepted, give the
//! same rows in use, and carry pairs to the same list.

mod seen;

use crate::case::{Call, Lists};
use crate::edits::fitting_edit;
use crate::judge::{Difference, Judge};
use crate::kept::Kept;
use crate::lists::ascending_pairs;
use crate::options::Part;
use crate::progress::Progress;
use crate::random::Random;
use crate::tables::{lengthen, sound};
use seen::{Outside, Pairs};

/// How many pairs within the conditions the default run makes.
pub const PAIRS: u64 = 150_000;

/// Poses pairs until there are so many within the conditions.
pub fn run(judge: &mut Judge<'_>, seed: u64, pairs: u64) -> Result<(), Difference> {
    let mut seen = Pairs::default();
    let mut progress = Progress::new(Part::Commute, pairs);
    let mut within = 0;
    for attempt in 0.. {
        let random = &mut Random::for_call(seed, "commute", attempt);
        let rows = match attempt % 2_000 {
            999 => random.pick(&[2_000, 4_090]),
            _ => random.within(2, 12),
        };
        let pair = Pair::any(random, rows);
        if pair.pose(judge, &mut seen)? {
            within += 1;
            progress.advance();
        }
        if within == pairs {
            break;
        }
    }
    if pairs >= PAIRS {
        seen.demand().map_err(|told| Difference(format!("{seen}{told}")))?;
    }
    judge.summary = seen.to_string();
    Ok(())
}

/// Two edits of one table, for which pairs are kept.
struct Pair {
    start: Kept,
    edits: [Call; 2],
}

impl Pair {
    /// Two edits that are mostly within the conditions.
    fn any(random: &mut Random, rows: usize) -> Pair {
        let table = sound(random, rows, 12);
        let start = Kept { table, count: rows, lists: Lists::default() };
        let mut pair = Pair { start, edits: [Call::Check, Call::Check] };
        let named = pair.two_rows(random);
        pair.edits = named.map(|row| fitting_edit(random, &pair.start.table, row));
        if random.chance(10) {
            share_a_key(&mut pair.edits);
        }
        // Just enough room for the one or the other, or more of it.
        let room = random.pick(&[0, 1, 3, 5, 10, 10, 10, 10]);
        for column in pair.start.table.each_mut() {
            let spare = room + random.within(0, 2);
            lengthen(random, column, spare);
        }
        let lists = &mut pair.start.lists;
        (lists.role, lists.row) = ascending_pairs(random, 8, 3, rows);
        pair
    }

    /// Two rows, mostly apart from each other.
    fn two_rows(&self, random: &mut Random) -> [usize; 2] {
        let count = self.start.count;
        let mut rows = [random.below(count), random.below(count)];
        for _ in 0..random.pick(&[0, 10, 10, 10]) {
            let [one, other] = rows;
            if one != other && !self.is_ancestor(one, other) && !self.is_ancestor(other, one) {
                break;
            }
            rows = [random.below(count), random.below(count)];
        }
        rows
    }

    /// Poses each edit by itself and, if both are accepted, both orders. Says whether the pair
    /// lies within the conditions.
    fn pose(&self, judge: &mut Judge<'_>, seen: &mut Pairs) -> Result<bool, Difference> {
        let [one, other] = &self.edits;
        let (Some(after_one), Some(after_other)) =
            (self.start.after(judge, one)?, self.start.after(judge, other)?)
        else {
            return Ok(false);
        };
        let orders = (after_one.after(judge, other)?, after_other.after(judge, one)?);
        let same = match &orders {
            (Some(left), Some(right)) => Some(same_in_use(left, right)),
            _ => None,
        };
        match (self.outside(), same) {
            (None, Some(true)) => {
                seen.add_within(&self.edits, self.edits_two_trees(), self.roots_deleted() > 0);
                Ok(true)
            }
            (None, Some(false)) => Err(self.tell("both orders are accepted and differ")),
            (None, None) => Err(self.tell("an order is refused")),
            (Some(outside), same) => {
                seen.add_outside(outside, same);
                Ok(false)
            }
        }
    }

    /// The first condition that the two edits, each accepted by itself, don't meet.
    fn outside(&self) -> Option<Outside> {
        let rows = self.edits.each_ref().map(|edit| self.named_row(edit));
        let pieces = self.edits.each_ref().map(piece_keys);
        let added = pieces[0].len() + pieces[1].len();
        if rows[0] == rows[1] {
            Some(Outside::SameRow)
        } else if self.is_ancestor(rows[0], rows[1]) || self.is_ancestor(rows[1], rows[0]) {
            Some(Outside::OneAboveOther)
        } else if self.roots_deleted() == 2 {
            Some(Outside::RootsDeleted)
        } else if pieces[0].iter().any(|key| pieces[1].contains(key)) {
            Some(Outside::KeyInBoth)
        } else if added > 0 && self.start.count + added > self.start.table.shortest().min(4_096) {
            Some(Outside::NoRoomForBoth)
        } else {
            None
        }
    }

    fn named_row(&self, edit: &Call) -> usize {
        let key_wanted = edit.named_key().expect("only edits are paired");
        let keys = &self.start.table.key[..self.start.count];
        keys.iter().position(|&key| key == key_wanted).expect("the edit was accepted")
    }

    /// How many of the two edits delete a root.
    fn roots_deleted(&self) -> usize {
        let deletes_root = |edit: &&Call| {
            matches!(edit, Call::Delete { .. }) && self.start.table.level[self.named_row(edit)] == 0
        };
        self.edits.iter().filter(deletes_root).count()
    }

    /// Whether the named rows stand in two trees: one starts after the first row, and no later
    /// than at the second.
    fn edits_two_trees(&self) -> bool {
        let [one, other] = self.edits.each_ref().map(|edit| self.named_row(edit));
        let levels = &self.start.table.level[one.min(other) + 1..=one.max(other)];
        levels.contains(&0)
    }

    /// By parents: the nearest earlier row whose level is one less.
    fn is_ancestor(&self, upper: usize, mut row: usize) -> bool {
        let level = &self.start.table.level;
        while let Some(parent) = (0..row).rev().find(|&up| level[up] + 1 == level[row]) {
            if parent == upper {
                return true;
            }
            row = parent;
        }
        false
    }

    fn tell(&self, what: &str) -> Difference {
        let [one, other] = self.edits.each_ref().map(|edit| self.start.asks(edit.clone()));
        let pairs = &self.start.lists;
        Difference(format!(
            "two edits: {what}\nthe pairs {pairs:?}\nthe first\n{one}\nthe second\n{other}"
        ))
    }
}

/// Whether both have the same rows in use and the same pairs.
fn same_in_use(left: &Kept, right: &Kept) -> bool {
    let mut columns = left.table.each().into_iter().zip(right.table.each());
    left.lists == right.lists
        && left.count == right.count
        && columns.all(|(left_column, right_column)| {
            left_column[..left.count] == right_column[..left.count]
        })
}

fn piece_keys(edit: &Call) -> &[usize] {
    match edit {
        Call::Insert(insert) => &insert.piece.key[..insert.piece_count],
        _ => &[],
    }
}

/// Gives two insertions a key in common.
fn share_a_key(edits: &mut [Call; 2]) {
    if let [Call::Insert(one), Call::Insert(other)] = edits {
        if let (Some(key), Some(place)) = (one.piece.key.first(), other.piece.key.last_mut()) {
            *place = *key;
        }
    }
}
