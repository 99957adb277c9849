//! The stated steps: M1 to M8, and the steps among the other stated cases.

use super::{farm, farm_lists};
use crate::case::{Answer, Call, Case, Lists, Step};
use crate::judge::{Difference, Judge};
use lent::Columns;

/// A step on the farm with the results and the kept count that are stated for it.
struct Stated {
    name: &'static str,
    axis: usize,
    test: usize,
    test_name: usize,
    results: &'static [(usize, usize)],
    kept: usize,
}

const STATED: [Stated; 7] = [
    Stated {
        name: "M1",
        axis: 3,
        test: 2,
        test_name: 4,
        results: &[(5, 3), (5, 5), (7, 8)],
        kept: 2,
    },
    Stated {
        name: "M2",
        axis: 2,
        test: 0,
        test_name: 0,
        results: &[(5, 2), (5, 3), (5, 4), (7, 7)],
        kept: 3,
    },
    Stated {
        name: "M3",
        axis: 6,
        test: 0,
        test_name: 0,
        results: &[(5, 0), (5, 1), (7, 0)],
        kept: 2,
    },
    Stated {
        name: "M4",
        axis: 8,
        test: 0,
        test_name: 0,
        results: &[(5, 4), (5, 5), (5, 6), (5, 7), (5, 8), (5, 9), (7, 9)],
        kept: 2,
    },
    Stated {
        name: "M5",
        axis: 9,
        test: 1,
        test_name: 0,
        results: &[(7, 1), (7, 2), (7, 3), (7, 4), (7, 5)],
        kept: 2,
    },
    Stated {
        name: "M6",
        axis: 10,
        test: 0,
        test_name: 0,
        results: &[(5, 4), (5, 6), (5, 9), (7, 9)],
        kept: 3,
    },
    Stated { name: "M7", axis: 1, test: 4, test_name: 0, results: &[], kept: 3 },
];

/// The farm's pairs, with result columns of so many places.
fn farm_step(axis: usize, test: usize, test_name: usize, room: usize) -> Step {
    Step { lists: farm_lists(room), axis, test, test_name }
}

fn on_farm(step: Step) -> Case {
    Case { table: farm(), count: 10, call: Call::Step(step) }
}

/// Poses the stated steps.
pub fn run(judge: &mut Judge<'_>) -> Result<(), Difference> {
    for Stated { name, axis, test, test_name, results, kept } in STATED {
        for room in [results.len(), results.len() + 1, 20] {
            let case = on_farm(farm_step(axis, test, test_name, room));
            let mut after = farm_step(axis, test, test_name, room);
            after.lists.write(results);
            let answer = Answer { first: results.len(), second: kept, ..Answer::default() };
            judge.pose_stated(name, case, answer, on_farm(after))?;
        }
    }
    refused(judge, "M8", farm_step(3, 2, 4, 2), Answer::refused(8, 3))?;
    refused(judge, "name 0 with test 2", farm_step(3, 2, 0, 9), Answer::refused(7, 0))?;
    refused(judge, "name 1 with test 0", farm_step(3, 0, 1, 9), Answer::refused(7, 0))?;
    refused(judge, "axis 0", farm_step(0, 0, 0, 9), Answer::refused(6, 0))?;
    refused(judge, "axis 12", farm_step(12, 0, 0, 9), Answer::refused(6, 0))?;
    refused(judge, "test 8", farm_step(1, 8, 0, 9), Answer::refused(7, 0))?;
    pairs_at_the_end(judge)?;
    no_pairs(judge)?;
    most_results(judge)
}

/// Poses a step that leaves everything as it is.
fn refused(
    judge: &mut Judge<'_>,
    name: &str,
    step: Step,
    answer: Answer,
) -> Result<(), Difference> {
    judge.pose_stated(name, on_farm(step.clone()), answer, on_farm(step))
}

/// Row 9 in a pair is accepted, row 10 is refusal 5.
fn pairs_at_the_end(judge: &mut Judge<'_>) -> Result<(), Difference> {
    let with_row = |row: usize| Step {
        lists: Lists { row: vec![1, 2, row], ..farm_lists(9) },
        ..farm_step(2, 0, 0, 9)
    };
    let mut after = with_row(9);
    after.lists.write(&[(5, 2), (5, 3), (5, 4)]);
    let answer = Answer { first: 3, second: 3, ..Answer::default() };
    judge.pose_stated("row 9 in a pair", on_farm(with_row(9)), answer, on_farm(after))?;
    refused(judge, "row 10 in a pair", with_row(10), Answer::refused(5, 2))
}

/// Pairs of length 0: accepted, no results, kept 0.
fn no_pairs(judge: &mut Judge<'_>) -> Result<(), Difference> {
    for axis in 1..=11 {
        for room in [0, 5] {
            let lists = Lists { role: vec![], row: vec![], ..farm_lists(room) };
            let step = Step { lists, ..farm_step(axis, 0, 0, room) };
            refused(judge, "no pairs", step, Answer::default())?;
        }
    }
    Ok(())
}

/// The place of refusal 8 can be as large as the most roles times the most rows.
fn most_results(judge: &mut Judge<'_>) -> Result<(), Difference> {
    let rows = 4_096;
    let level: Vec<usize> = (0..rows).map(|row| row.min(1)).collect();
    let mut size = vec![0; rows];
    size[0] = rows - 1;
    let key = (1..=rows).collect();
    let table = Columns { key, size, level, kind: vec![1; rows], name: vec![1; rows] };
    let lists = Lists { role: (0..rows).collect(), row: vec![0; rows], ..farm_lists(3) };
    let step = Step { lists, ..farm_step(4, 0, 0, 3) };
    let case = Case { table, count: rows, call: Call::Step(step) };
    judge.pose_stated("the most results", case.clone(), Answer::refused(8, 16_777_216), case)
}
