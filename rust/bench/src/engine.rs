//! The two programs that race.

use crate::carries::{Carry, Room};
use crate::steps::Step;
use lent::{lend, lend_items, lend_mut, lend_pairs, lend_results, Columns, Items};

/// What both programs must answer alike: the refusal and two numbers after it.
pub type Seen = (usize, usize, usize);

/// A program that can be timed. Every row is in use; only an insertion has spare rows, and so a
/// count, for its table.
pub trait Engine {
    fn check(&self, table: &Columns) -> Seen;
    fn find(&self, table: &Columns, key_wanted: usize) -> Seen;
    fn step(&self, table: &Columns, step: &mut Step) -> Seen;
    fn insert(&self, table: &mut Columns, count: usize, parent_key: usize, piece: &Columns)
        -> Seen;
    fn delete(&self, table: &mut Columns, key_wanted: usize) -> Seen;
    fn rename(&self, table: &mut Columns, key_wanted: usize, new_name: usize) -> Seen;
    fn carry(&self, carry: &Carry, room: &mut Room) -> Seen;
    fn batch(&self, table: &mut Columns, items: &Items) -> Seen;
}

/// The numbers of an answer that both programs must give alike.
macro_rules! seen {
    ($answer:expr) => {{
        let answer = $answer;
        (answer.refusal, answer.first, answer.second)
    }};
}

/// The same of a find: the row with its level, which is below 64, and the parent.
macro_rules! seen_found {
    ($found:expr) => {{
        let found = $found;
        (found.refusal, found.row * 64 + found.level, found.parent as usize)
    }};
}

/// Plain, unverified Rust.
pub struct Plain;

impl Engine for Plain {
    fn check(&self, table: &Columns) -> Seen {
        seen!(plain::check(&lend!(plain, table)))
    }

    fn find(&self, table: &Columns, key_wanted: usize) -> Seen {
        seen_found!(plain::find(&lend!(plain, table), key_wanted))
    }

    fn step(&self, table: &Columns, step: &mut Step) -> Seen {
        seen!(plain::step(
            &lend!(plain, table),
            &lend_pairs!(plain, step),
            plain::Question { axis: step.axis, test: step.test, test_name: step.test_name },
            &mut lend_results!(plain, step),
        ))
    }

    fn insert(
        &self,
        table: &mut Columns,
        count: usize,
        parent_key: usize,
        piece: &Columns,
    ) -> Seen {
        seen!(plain::insert(&mut lend_mut!(plain, table, count), parent_key, &lend!(plain, piece)))
    }

    fn delete(&self, table: &mut Columns, key_wanted: usize) -> Seen {
        seen!(plain::delete(&mut lend_mut!(plain, table), key_wanted))
    }

    fn rename(&self, table: &mut Columns, key_wanted: usize, new_name: usize) -> Seen {
        seen!(plain::rename(&mut lend_mut!(plain, table), key_wanted, new_name))
    }

    fn carry(&self, carry: &Carry, room: &mut Room) -> Seen {
        seen!(plain::carry(
            &lend_pairs!(plain, carry),
            carry.old_count,
            carry.first,
            carry.moved,
            &mut lend_results!(plain, room),
        ))
    }

    fn batch(&self, table: &mut Columns, items: &Items) -> Seen {
        seen!(plain::batch(&mut lend_mut!(plain, table), &lend_items!(plain, items)))
    }
}

/// The verified library.
#[cfg(feature = "library")]
pub struct Library;

#[cfg(feature = "library")]
impl Engine for Library {
    fn check(&self, table: &Columns) -> Seen {
        seen!(reach::boundary::check(lend!(reach, table)))
    }

    fn find(&self, table: &Columns, key_wanted: usize) -> Seen {
        seen_found!(reach::boundary::find(lend!(reach, table), key_wanted))
    }

    fn step(&self, table: &Columns, step: &mut Step) -> Seen {
        seen!(reach::boundary::step(
            lend!(reach, table),
            lend_pairs!(reach, step),
            step.axis,
            step.test,
            step.test_name,
            lend_results!(reach, step),
        ))
    }

    fn insert(
        &self,
        table: &mut Columns,
        count: usize,
        parent_key: usize,
        piece: &Columns,
    ) -> Seen {
        seen!(reach::boundary::insert(
            &mut lend_mut!(reach, table, count),
            parent_key,
            lend!(reach, piece)
        ))
    }

    fn delete(&self, table: &mut Columns, key_wanted: usize) -> Seen {
        seen!(reach::boundary::delete(&mut lend_mut!(reach, table), key_wanted))
    }

    fn rename(&self, table: &mut Columns, key_wanted: usize, new_name: usize) -> Seen {
        seen!(reach::boundary::rename(&mut lend_mut!(reach, table), key_wanted, new_name))
    }

    fn carry(&self, carry: &Carry, room: &mut Room) -> Seen {
        seen!(reach::boundary::carry(
            lend_pairs!(reach, carry),
            carry.old_count,
            carry.first,
            carry.moved,
            lend_results!(reach, room),
        ))
    }

    fn batch(&self, table: &mut Columns, items: &Items) -> Seen {
        seen!(reach::boundary::batch(&mut lend_mut!(reach, table), lend_items!(reach, items)))
    }
}
