//! Steps where one table holds several farms.

use crate::race::Race;
use crate::report::{figure, Group};
use crate::steps::{desk_pairs, time, Step, ROWS};
use crate::tables::farms;

/// Each step takes at most so many times what plain Rust takes.
const BAR: f64 = 1.3;
/// With as many trees as rows, 200 roles take at most so many times what one takes. If each role
/// looked at each tree, they would take many times as long.
const ROLES_BAR: f64 = 1.5;

/// The axes whose rows are cut off at the ends of a tree.
const SIDES: [usize; 2] = [8, 9];

pub fn run(race: &Race) {
    nine_farms(race);
    trees_of_one_row(race);
}

fn nine_farms(race: &Race) {
    let table = farms(9, 455);
    let mut group = Group::new("nine farms of 455 rows, microseconds a call");
    let mut desk = Step::new(desk_pairs(0..9 * 455));
    for axis in 1..=11 {
        let times = time(race, &table, desk.any_node(axis));
        group.line_with_bar(&format!("200 roles, 4,000 pairs, axis {axis}, any"), times, BAR);
        let times = time(race, &table, desk.named(axis));
        group.line_with_bar(&format!("200 roles, 4,000 pairs, axis {axis}, named"), times, BAR);
    }
    group.mean();
}

/// The most trees that there can be: a role must not be charged for those that it has no pair in.
fn trees_of_one_row(race: &Race) {
    let table = farms(ROWS, 1);
    let mut group = Group::new("4,096 trees of one row, microseconds a call");
    let mut desk = Step::new(desk_pairs(0..ROWS));
    let mut lone = Step::new(vec![(5, ROWS / 2)]);
    let mut crowd = Step::new((0..200).map(|role| (role, role * 20)).collect());
    let mut ratios = Vec::new();
    for axis in SIDES {
        let times = time(race, &table, desk.any_node(axis));
        group.line_with_bar(&format!("200 roles, 4,000 pairs, axis {axis}"), times, BAR);
        let many = time(race, &table, crowd.any_node(axis));
        group.line_with_bar(&format!("200 roles, one pair each, axis {axis}"), many, BAR);
        let one = time(race, &table, lone.any_node(axis));
        group.line_with_bar(&format!("one role, one pair, axis {axis}"), one, BAR);
        ratios.push(many.ours / one.ours);
    }
    for (axis, ratio) in SIDES.into_iter().zip(ratios) {
        figure(&format!("the library's 200 roles over one role, axis {axis}"), ratio, ROLES_BAR);
    }
}
