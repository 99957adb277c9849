//! Where the rows of a role go: into the result columns, or into a count.

use crate::filter::Filter;
use std::ops::Range;

/// The two columns that results are written to.
#[derive(Debug)]
pub struct Results<'a> {
    /// Roles.
    pub role: &'a mut [usize],
    /// Rows.
    pub row: &'a mut [usize],
}

/// Takes rows in ascending order, role by role, and keeps those that pass its filter.
pub(crate) trait Sink {
    /// The rows from now on are those of this role.
    fn begin_role(&mut self, role: usize);
    fn one(&mut self, row: usize);
    fn range(&mut self, rows: Range<usize>);
}

/// Counts what would be written.
pub(crate) struct Counter<F> {
    pub filter: F,
    pub count: usize,
}

impl<F: Filter> Sink for Counter<F> {
    fn begin_role(&mut self, _: usize) {}

    #[inline(always)]
    fn one(&mut self, row: usize) {
        self.count += usize::from(self.filter.passes(row));
    }

    #[inline(always)]
    fn range(&mut self, rows: Range<usize>) {
        if F::EVERY {
            self.count += rows.len();
        } else {
            self.count += self.filter.passing(rows).count();
        }
    }
}

/// Writes into columns that are known to be long enough.
pub(crate) struct Writer<'a, F> {
    filter: F,
    results: Results<'a>,
    role: usize,
    pub count: usize,
}

impl<'a, F: Filter> Writer<'a, F> {
    pub fn new(filter: F, results: Results<'a>) -> Self {
        Writer { filter, results, role: 0, count: 0 }
    }
}

impl<F: Filter> Sink for Writer<'_, F> {
    #[inline(always)]
    fn begin_role(&mut self, role: usize) {
        self.role = role;
    }

    #[inline(always)]
    fn one(&mut self, row: usize) {
        if self.filter.passes(row) {
            self.results.role[self.count] = self.role;
            self.results.row[self.count] = row;
            self.count += 1;
        }
    }

    #[inline(always)]
    fn range(&mut self, rows: Range<usize>) {
        let start = self.count;
        if F::EVERY {
            self.count += rows.len();
            let slots = &mut self.results.row[start..self.count];
            slots.iter_mut().zip(rows).for_each(|(slot, row)| *slot = row);
        } else {
            self.count += write_passing(self.filter, rows, &mut self.results.row[start..]);
        }
        self.results.role[start..self.count].fill(self.role);
    }
}

/// Writes the rows that pass and answers how many they are.
#[inline(never)]
fn write_passing<F: Filter>(filter: F, rows: Range<usize>, slots: &mut [usize]) -> usize {
    let mut count = 0;
    for row in filter.passing(rows) {
        slots[count] = row;
        count += 1;
    }
    count
}
