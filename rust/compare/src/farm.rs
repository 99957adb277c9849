//! The cases that the rules state for the small farm, with the numbers that they state, and lists
//! of changes to it and cases of two farms in one table, worked out by hand.

mod batches;
mod carries;
mod edits;
mod steps;
mod two_farms;

use crate::case::{Answer, Call, Case, Lists};
use crate::judge::{Difference, Judge};
use crate::tables::chain;
use lent::Columns;

/// The small farm.
pub fn farm() -> Columns {
    Columns {
        key: vec![10, 20, 21, 22, 23, 24, 30, 31, 32, 40],
        size: vec![9, 4, 1, 0, 1, 0, 2, 1, 0, 0],
        level: vec![0, 1, 2, 3, 2, 3, 1, 2, 3, 1],
        kind: vec![1, 1, 1, 1, 1, 1, 1, 1, 1, 3],
        name: vec![1, 2, 3, 4, 3, 4, 2, 3, 4, 0],
    }
}

/// What the places of result columns hold before a call.
const UNWRITTEN: usize = 77;

/// The farm's pairs, with result columns of so many places.
fn farm_lists(room: usize) -> Lists {
    Lists {
        role: vec![5, 5, 7],
        row: vec![1, 2, 6],
        out_role: vec![UNWRITTEN; room],
        out_row: vec![UNWRITTEN; room],
    }
}

/// Poses every stated case.
pub fn run(judge: &mut Judge<'_>) -> Result<(), Difference> {
    checks(judge)?;
    steps::run(judge)?;
    edits::run(judge)?;
    carries::run(judge)?;
    batches::run(judge)?;
    two_farms::run(judge)
}

/// The farm is sound, its keys are found, and level 63 is accepted, 64 refused.
fn checks(judge: &mut Judge<'_>) -> Result<(), Difference> {
    let mut unchanged = |name: &str, table: Columns, count: usize, call: Call, stated: Answer| {
        let case = Case { table, count, call };
        judge.pose_stated(name, case.clone(), stated, case)
    };
    let find = |key_wanted: usize| Call::Find { key_wanted };
    unchanged("the farm is sound", farm(), 10, Call::Check, Answer::default())?;
    let parents = [-1, 0, 1, 2, 1, 4, 0, 6, 7, 0];
    for (row, parent) in parents.into_iter().enumerate() {
        let stated = Answer::found(row, farm().level[row], parent);
        unchanged("a key is found", farm(), 10, find(farm().key[row]), stated)?;
    }
    for key in [0, 11, usize::MAX] {
        unchanged("a key is not found", farm(), 10, find(key), Answer::refused(9, 0))?;
    }
    for count in [0, 11, 4_096, 4_097, usize::MAX] {
        unchanged("a bad count", farm(), count, Call::Check, Answer::refused(1, 0))?;
    }
    for key in [0, 20] {
        unchanged("a bad count", farm(), 11, find(key), Answer::refused(1, 0))?;
    }
    unchanged("level 63", chain(64), 64, Call::Check, Answer::default())?;
    unchanged("a row at level 63", chain(64), 64, find(64), Answer::found(63, 63, 62))?;
    unchanged("level 64", chain(65), 65, Call::Check, Answer::refused(2, 64))?;
    let mut broken = farm();
    broken.level[8] = 1;
    for call in [Call::Check, find(0), find(20)] {
        unchanged("an earlier size", broken.clone(), 10, call, Answer::refused(2, 6))?;
    }
    Ok(())
}
