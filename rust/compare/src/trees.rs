//! A step over several trees lists what steps on the trees list, each of them a table of its own,
//! and keeps as many pairs as they do. This is put together here and left to neither program.

use crate::case::{Call, Case, Lists, Step};
use crate::judge::{Difference, Judge};
use crate::lists::ascending_pairs;
use crate::options::Part;
use crate::progress::Progress;
use crate::random::Random;
use crate::steps::good_question;
use crate::tables::sound_trees;
use lent::Columns;
use std::ops::Range;

/// How many steps over several trees the default run makes.
pub const STEPS: u64 = 40_000;

/// Poses each step on the whole table, and then on each of its trees.
pub fn run(judge: &mut Judge<'_>, seed: u64, steps: u64) -> Result<(), Difference> {
    let mut progress = Progress::new(Part::Trees, steps);
    for number in 0..steps {
        let random = &mut Random::for_call(seed, "trees", number);
        let rows = match number % 500 {
            499 => random.within(13, 300),
            _ => random.within(2, 12),
        };
        pose(judge, &Whole::any(random, rows))?;
        progress.advance();
    }
    Ok(())
}

fn pose(judge: &mut Judge<'_>, whole: &Whole) -> Result<(), Difference> {
    let case = whole.part(0..whole.table.level.len());
    let at_once = Listed::of(judge, case.clone())?;
    let mut one_by_one = Listed::default();
    for tree in whole.trees() {
        let first = tree.start;
        one_by_one.add(Listed::of(judge, whole.part(tree))?, first);
    }
    one_by_one.pairs.sort_unstable();
    if at_once != one_by_one {
        let told = format!("it gives {at_once:?}\nand one tree after the other {one_by_one:?}");
        return Err(judge.tell(&case, &told));
    }
    Ok(())
}

/// A table of several trees, and a step without room for results.
struct Whole {
    table: Columns,
    step: Step,
}

impl Whole {
    fn any(random: &mut Random, rows: usize) -> Whole {
        let trees = random.within(2, rows.min(40));
        let table = sound_trees(random, rows, trees, 12);
        let (pairs, roles) = (random.within(0, rows), random.within(1, 4));
        let (role, row) = ascending_pairs(random, pairs, roles, rows);
        let lists = Lists { role, row, ..Lists::default() };
        Whole { table, step: Step { lists, ..good_question(random) } }
    }

    /// The rows of each tree.
    fn trees(&self) -> Vec<Range<usize>> {
        let mut end = 0;
        let trees = self.table.level.chunk_by(|_, &next| next != 0);
        let rows_of = trees.map(|tree| {
            end += tree.len();
            end - tree.len()..end
        });
        rows_of.collect()
    }

    /// The step on these rows alone, with their pairs and with room for every row of every pair.
    fn part(&self, rows: Range<usize>) -> Case {
        let table = self.table.part(rows.clone());
        let pairs = self.step.lists.role.iter().zip(&self.step.lists.row);
        let (role, row): (Vec<usize>, Vec<usize>) = pairs
            .filter(|(_, row)| rows.contains(row))
            .map(|(&role, &row)| (role, row - rows.start))
            .unzip();
        let room = vec![0; rows.len() * role.len()];
        let lists = Lists { role, row, out_role: room.clone(), out_row: room };
        let step = Step { lists, ..self.step };
        Case { table, count: rows.len(), call: Call::Step(step) }
    }
}

/// What a step lists, and how many pairs it keeps.
#[derive(Debug, Default, PartialEq, Eq)]
struct Listed {
    pairs: Vec<(usize, usize)>,
    kept: usize,
}

impl Listed {
    /// What a step lists that has room enough.
    fn of(judge: &mut Judge<'_>, case: Case) -> Result<Listed, Difference> {
        let (answer, left) = judge.pose(case)?;
        match left.lists() {
            Some(lists) if answer.refusal == 0 => {
                let Lists { role, row, .. } = lists.results(answer.first);
                let pairs = role.into_iter().zip(row).collect();
                Ok(Listed { pairs, kept: answer.second })
            }
            _ => Err(judge.tell(&left, "it refuses a good step that has room enough")),
        }
    }

    /// Adds what is listed for a tree that starts at this row.
    fn add(&mut self, tree: Listed, first: usize) {
        self.pairs.extend(tree.pairs.into_iter().map(|(role, row)| (role, first + row)));
        self.kept += tree.kept;
    }
}
