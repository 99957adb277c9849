//! One step for all roles: the axis is walked from the row of every pair.

use crate::answer::{Answer, Refused};
use crate::forest::{Forest, Node};
use crate::kept::kept_count;
use crate::pairs::{Pairs, Results};
use crate::sound_rows;
use crate::table::Table;

/// What is asked along the way: the axis, and the test with its name.
#[derive(Clone, Copy, Debug)]
pub struct Question {
    /// The axis code.
    pub axis: usize,
    /// The test code.
    pub test: usize,
    /// The name that goes with the test.
    pub test_name: usize,
}

/// Answers a step: refusals 1 to 8. Results are written only where the call is accepted.
pub fn step(
    table: &Table<'_>,
    pairs: &Pairs<'_>,
    question: Question,
    results: &mut Results<'_>,
) -> Answer {
    match accepted(table, pairs, question, results) {
        Ok((results, kept)) => Answer { first: results, second: kept, ..Answer::default() },
        Err(refused) => refused.answer(),
    }
}

fn accepted(
    table: &Table<'_>,
    pairs: &Pairs<'_>,
    question: Question,
    results: &mut Results<'_>,
) -> Result<(usize, usize), Refused> {
    let rows = sound_rows(table)?;
    let mut pairs = pairs.good(rows.count())?;
    good_question(question)?;
    // Equal pairs count once.
    pairs.dedup();
    let forest = Forest::of(&rows);
    let found = Found::of(&forest, &pairs, question, results.room());
    if found.count > results.room() {
        return Err(Refused { number: 8, place: found.count });
    }
    results.write(&found.listed);
    Ok((found.count, kept_count(&forest, &pairs, question.axis)))
}

fn good_question(question: Question) -> Result<(), Refused> {
    if !(1..=11).contains(&question.axis) {
        return Err(Refused { number: 6, place: 0 });
    }
    let name_fits = match question.test {
        2 | 6 => question.test_name != 0,
        0 | 1 | 3 | 4 | 5 | 7 => question.test_name == 0,
        _ => false,
    };
    if name_fits {
        Ok(())
    } else {
        Err(Refused { number: 7, place: 0 })
    }
}

/// Whether the node passes the test.
fn passes(node: &Node, question: Question) -> bool {
    let (kind, has_name) = (node.kind, node.name == question.test_name);
    match question.test {
        0 => true,
        1 => kind == 1,
        2 => kind == 1 && has_name,
        3 => kind == 2,
        4 => kind == 3,
        5 => kind == 4,
        6 => kind == 4 && has_name,
        7 => kind == 0,
        _ => unreachable!("other tests are refused"),
    }
}

/// The results: how many there are, and the list of them as far as there is room for it.
struct Found {
    count: usize,
    listed: Vec<(usize, usize)>,
}

impl Found {
    /// The results of a role are the nodes that pass the test and are on the axis of any of its
    /// contexts. Roles are taken in ascending order, and their results in document order.
    fn of(forest: &Forest, pairs: &[(usize, usize)], question: Question, room: usize) -> Found {
        let mut found = Found { count: 0, listed: Vec::new() };
        let mut passing = forest.in_document_order();
        passing.retain(|&node| passes(&forest.nodes[node], question));
        for of_role in pairs.chunk_by(|one, next| one.0 == next.0) {
            let contexts = of_role.iter().map(|&(_, context)| context);
            let is_reached =
                forest.marks(contexts.flat_map(|context| forest.on_axis(question.axis, context)));
            for &node in passing.iter().filter(|&&node| is_reached[node]) {
                found.count += 1;
                if found.count <= room {
                    found.listed.push((of_role[0].0, node));
                }
            }
        }
        found
    }
}
