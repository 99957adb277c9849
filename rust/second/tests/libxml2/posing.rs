//! What the second program is asked of a table, and what it answers.

use crate::random::Random;
use crate::trees::NAMES;
use second::{step, Pairs, Question, Results, Table};

/// How many roles have several contexts.
const ROLES_OF_SEVERAL: usize = 12;

/// The contexts of each role: every row by itself, then several at once from whatever trees.
pub fn roles(random: &mut Random, rows: usize) -> Vec<Vec<usize>> {
    let mut roles: Vec<Vec<usize>> = (0..rows).map(|row| vec![row]).collect();
    for _ in 0..ROLES_OF_SEVERAL {
        // No more than six, since the shell of `xmllint` cuts long lines off.
        let mut contexts: Vec<usize> =
            (0..random.within(2, 6)).map(|_| random.below(rows)).collect();
        contexts.sort_unstable();
        contexts.dedup();
        roles.push(contexts);
    }
    roles
}

/// Every axis with every test. Where a test wants a name, it is any.
pub fn questions(random: &mut Random) -> Vec<Question> {
    let codes = (1..=11).flat_map(|axis| (0..=7).map(move |test| (axis, test)));
    let question = |(axis, test)| {
        let test_name = if test == 2 || test == 6 { random.within(1, NAMES) } else { 0 };
        Question { axis, test, test_name }
    };
    codes.map(question).collect()
}

/// For each role the rows that the second program lists, in its order. Some pairs are given twice.
pub fn reached(
    random: &mut Random,
    table: &Table<'_>,
    roles: &[Vec<usize>],
    question: Question,
) -> Vec<Vec<usize>> {
    let (mut role, mut row) = (Vec::new(), Vec::new());
    for (number, contexts) in roles.iter().enumerate() {
        for &context in contexts {
            let times = random.pick(&[1, 1, 1, 2]);
            role.extend(vec![number; times]);
            row.extend(vec![context; times]);
        }
    }
    let room = roles.len() * table.count;
    let (mut out_role, mut out_row) = (vec![0; room], vec![0; room]);
    let results = &mut Results { role: &mut out_role, row: &mut out_row };
    let answer = step(table, &Pairs { role: &role, row: &row }, question, results);
    assert_eq!(answer.refusal, 0, "the call is good and there is room for all results");
    let mut reached = vec![Vec::new(); roles.len()];
    for (role, row) in out_role.into_iter().zip(out_row).take(answer.first) {
        reached[role].push(row);
    }
    reached
}
