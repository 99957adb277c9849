//! The stated carries of the farm's pairs: over M9, M10 and a rename, and each refusal of a carry.

use super::{farm_lists, UNWRITTEN};
use crate::case::{Answer, Carry, Case, Lists};
use crate::judge::{Difference, Judge};

/// A carry with the new list that is stated for it. The farm has ten rows.
struct Stated {
    name: &'static str,
    pairs: &'static [(usize, usize)],
    first: usize,
    moved: i64,
    new_list: &'static [(usize, usize)],
}

/// What the roles hold: one on a row that M9 deletes, one on the row that M10 moves.
const PAIRS: [(usize, usize); 4] = [(5, 1), (5, 2), (7, 6), (7, 9)];

const STATED: [Stated; 12] = [
    Stated {
        name: "carry over M9",
        pairs: &[(5, 1), (5, 2), (7, 6)],
        first: 4,
        moved: -2,
        new_list: &[(5, 1), (7, 4)],
    },
    Stated {
        name: "carry over M10",
        pairs: &PAIRS,
        first: 9,
        moved: 1,
        new_list: &[(5, 1), (5, 2), (7, 6), (7, 10)],
    },
    Stated { name: "carry over a rename", pairs: &PAIRS, first: 10, moved: 0, new_list: &PAIRS },
    Stated {
        name: "carry over the deletion of the last row",
        pairs: &PAIRS,
        first: 10,
        moved: -1,
        new_list: &[(5, 1), (5, 2), (7, 6)],
    },
    Stated { name: "carry nothing", pairs: &[], first: 4, moved: -2, new_list: &[] },
    Stated { name: "carry none on", pairs: &[(5, 2), (7, 3)], first: 4, moved: -2, new_list: &[] },
    Stated {
        name: "equal pairs stay equal",
        pairs: &[(5, 4), (5, 4), (7, 3), (7, 3), (7, 9)],
        first: 4,
        moved: -2,
        new_list: &[(5, 2), (5, 2), (7, 7)],
    },
    Stated {
        name: "the first moved row comes to row 1",
        pairs: &PAIRS,
        first: 3,
        moved: -2,
        new_list: &[(7, 4), (7, 7)],
    },
    Stated {
        name: "the first moved row comes to row 0",
        pairs: &PAIRS,
        first: 2,
        moved: -2,
        new_list: &[(5, 0), (7, 4), (7, 7)],
    },
    Stated {
        name: "row 0 alone is left",
        pairs: &[(5, 0), (5, 1), (7, 9)],
        first: 10,
        moved: -9,
        new_list: &[(5, 0)],
    },
    Stated {
        name: "to 4,096 rows",
        pairs: &PAIRS,
        first: 1,
        moved: 4_086,
        new_list: &[(5, 4_087), (5, 4_088), (7, 4_092), (7, 4_095)],
    },
    Stated { name: "no move before the end", pairs: &PAIRS, first: 1, moved: 0, new_list: &PAIRS },
];

/// Poses the stated carries.
pub fn run(judge: &mut Judge<'_>) -> Result<(), Difference> {
    for Stated { name, pairs, first, moved, new_list } in STATED {
        for room in [new_list.len(), new_list.len() + 1, 20] {
            let (role, row) = pairs.iter().copied().unzip();
            let lists = Lists { role, row, ..farm_lists(room) };
            let mut after = lists.clone();
            after.write(new_list);
            let case = |lists: Lists| Case::of_carry(10, Carry { lists, first, moved });
            let answer = Answer { first: new_list.len(), ..Answer::default() };
            judge.pose_stated(name, case(lists), answer, case(after))?;
        }
    }
    bad_moves(judge)?;
    refusals(judge)
}

/// The boundary of refusal 17, which comes before refusal 8 and also where there are no pairs.
fn bad_moves(judge: &mut Judge<'_>) -> Result<(), Difference> {
    let bad = [
        ("first moved row 0", 0, 0),
        ("first moved row above the old count", 11, 0),
        ("the largest first moved row", usize::MAX, 2),
        ("the first moved row falls below row 0", 2, -3),
        ("all rows deleted", 10, -10),
        ("to 4,097 rows", 10, 4_087),
        ("the least move", 10, i64::MIN),
        ("the largest move", 10, i64::MAX),
    ];
    for (name, first, moved) in bad {
        let none = Lists { role: vec![], row: vec![], ..farm_lists(0) };
        for lists in [farm_lists(3), farm_lists(0), none] {
            let carry = Carry { lists, first, moved };
            refused(judge, name, 10, carry, Answer::refused(17, 0))?;
        }
    }
    Ok(())
}

/// The other refusals of a carry, each with 17 and 8 at once where they come later.
fn refusals(judge: &mut Judge<'_>) -> Result<(), Difference> {
    let bad_move = |lists: Lists| Carry { lists, first: 0, moved: 0 };
    let m9 = |lists: Lists| Carry { lists, first: 4, moved: -2 };
    for old_count in [0, 4_097, usize::MAX] {
        let lists = Lists { row: vec![], ..farm_lists(0) };
        refused(judge, "a bad old count", old_count, bad_move(lists), Answer::refused(1, 0))?;
    }
    let unequal = Lists { row: vec![1, 2], ..farm_lists(0) };
    refused(judge, "unequal columns", 10, bad_move(unequal), Answer::refused(3, 0))?;
    let falling = Lists { row: vec![2, 1, 10], ..farm_lists(0) };
    refused(judge, "a falling row", 10, bad_move(falling), Answer::refused(4, 1))?;
    // Row 6 is not below the old count, though it is below the new one.
    refused(judge, "row 6 of six", 6, bad_move(farm_lists(0)), Answer::refused(5, 2))?;
    let insertion = Carry { lists: farm_lists(3), first: 6, moved: 1 };
    refused(judge, "row 6 of seven later on", 6, insertion, Answer::refused(5, 2))?;
    refused(judge, "room for one of two", 10, m9(farm_lists(1)), Answer::refused(8, 2))?;
    let one_short = Lists { out_row: vec![UNWRITTEN], ..farm_lists(9) };
    refused(judge, "room in one column only", 10, m9(one_short), Answer::refused(8, 2))
}

/// Poses a carry that leaves everything as it is.
fn refused(
    judge: &mut Judge<'_>,
    name: &str,
    old_count: usize,
    carry: Carry,
    answer: Answer,
) -> Result<(), Difference> {
    let case = Case::of_carry(old_count, carry);
    judge.pose_stated(name, case.clone(), answer, case)
}
