//! One step for all roles.

use crate::answer::Answer;
use crate::axes::Axes;
use crate::check::{first_unsound_with_parents, parent, Up};
use crate::filter::{Any, Filter, Named, OfKind, Test};
use crate::keys::{by_rows, Keys};
use crate::pairs::Pairs;
use crate::sink::{Counter, Results, Sink, Writer};
use crate::table::{Rows, Table};
use crate::{LEVELS, MOST_ROWS};

/// What is asked along the way: the axis, and the test with its name.
#[derive(Clone, Copy, Debug)]
pub struct Question {
    /// The axis code.
    pub axis: usize,
    /// The test code.
    pub test: usize,
    /// The name that goes with the test.
    pub test_name: usize,
}

/// Answers a step: refusals 1 to 8. Results are written only where the call is accepted.
pub fn step(
    table: &Table<'_>,
    pairs: &Pairs<'_>,
    question: Question,
    results: &mut Results<'_>,
) -> Answer {
    let Some(rows) = table.rows_in_use() else {
        return Answer::refused(1, 0);
    };
    let mut up = [0; MOST_ROWS];
    if let Some(row) = by_rows!(rows.count(), unsound(&rows, &mut up)) {
        return Answer::refused(2, row);
    }
    let roles = match pairs.check(rows.count()) {
        Ok(roles) => roles,
        Err(refused) => return refused,
    };
    if !(1..=11).contains(&question.axis) {
        return Answer::refused(6, 0);
    }
    let Some(test) = Test::of(question.test, question.test_name) else {
        return Answer::refused(7, 0);
    };
    let mut walk = Walk { rows, up: &up, pairs, axis: question.axis, roles };
    match test {
        Test::Any => walk.answer(Any, results),
        Test::Kind(kind) => walk.answer(OfKind::new(&rows, kind), results),
        Test::Named(kind, name) => walk.answer(Named::new(&rows, kind, name), results),
    }
}

fn unsound<const SLOTS: usize>(rows: &Rows<'_>, up: &mut Up) -> Option<usize> {
    first_unsound_with_parents(rows, &mut Keys::<SLOTS>::new(), up)
}

/// A step whose input has been found good.
struct Walk<'a> {
    rows: Rows<'a>,
    up: &'a Up,
    pairs: &'a Pairs<'a>,
    axis: usize,
    roles: usize,
}

impl Walk<'_> {
    /// Counts first only where it isn't clear anyhow that all results fit.
    fn answer<F: Filter>(&mut self, filter: F, results: &mut Results<'_>) -> Answer {
        let room = results.role.len().min(results.row.len());
        if !self.surely_fits(room) {
            let mut counter = Counter { filter, count: 0 };
            self.run(&mut counter);
            if counter.count > room {
                return Answer::refused(8, counter.count);
            }
        }
        let results = Results { role: &mut *results.role, row: &mut *results.row };
        let mut writer = Writer::new(filter, results);
        let kept = self.run(&mut writer);
        Answer { first: writer.count, second: kept, ..Answer::default() }
    }

    /// Lists all roles and answers the kept count.
    fn run(&self, sink: &mut impl Sink) -> usize {
        Axes::new(self.rows.size, self.up).list(self.axis, self.pairs, sink)
    }

    /// Whether it is clear, without a look at any result, that all of them fit.
    fn surely_fits(&self, room: usize) -> bool {
        self.roles * self.rows.count() <= room || self.most_results() <= room
    }

    /// No step on the axis has more results than this, whatever its test.
    fn most_results(&self) -> usize {
        let contexts = self.pairs.row.iter();
        let below = |row: usize| self.rows.size[row] + 1;
        match self.axis {
            1 | 5 => contexts.len(),
            2..=4 => contexts.map(|&context| below(context)).sum(),
            6 | 7 => contexts.len() * LEVELS,
            8 | 9 => self.roles * self.rows.count(),
            _ => contexts.filter_map(|&context| parent(self.up, context)).map(below).sum(),
        }
    }
}
