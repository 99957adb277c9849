//! How a step's cost grows with its pairs and results, and with the rows of the table.

use crate::engine::Engine;
use crate::race::Race;
use crate::report::{figure, Group};
use crate::steps::{desk_pairs, spread_pairs, time, Step, ROWS};
use crate::tables::{farms, plant};
use lent::Columns;

/// How often both tables are measured by turns; the least time counts.
const TURNS: usize = 5;
/// Twice the farms with twice the pairs take at most so many times the time.
const FARMS_BAR: f64 = 2.3;

pub fn run(race: &Race) {
    more_pairs(race);
    more_rows(race);
    more_farms(race);
}

/// Half the roles of the desk, a quarter, an eighth: the pairs and the results shrink alike.
fn more_pairs(race: &Race) {
    let table = plant(ROWS);
    let mut group = Group::new("growth of a step, microseconds a call");
    for axis in [2, 6, 8, 10] {
        for pairs in [500, 1_000, 2_000, 4_000] {
            let mut step = Step::new(desk_pairs(0..ROWS)[..pairs].to_vec());
            let (_, results, _) = race.ours.step(&table, step.any_node(axis));
            let line = format!("axis {axis}: {pairs} pairs, {results} results");
            group.line(&line, time(race, &table, &mut step));
        }
    }
}

/// A step adds at most what the check and the parents pass take: the time of a step of one pair,
/// which does little else. What they take for the added rows alone is printed beside it; the
/// question whether a step adds nothing else at all is answered by `tools/growth`.
fn more_rows(race: &Race) {
    println!();
    println!("twice the rows, the same pairs and results: microseconds more a call");
    println!("{:<44}{:>10}{:>10}{:>10}", "", "step", "one pair", "bar");
    let tables = [plant(ROWS / 2), plant(ROWS)];
    let (mut many, mut one) = (Step::new(many_pairs()), Step::new(one_pair()));
    for axis in [1, 2, 3, 4, 5, 6, 7, 10, 11] {
        let step = both_times(race, &tables, many.any_node(axis));
        let lone = both_times(race, &tables, one.any_node(axis));
        let (more, passes, bar) = (step[1] - step[0], lone[1] - lone[0], lone[1]);
        let verdict = if more <= bar { "PASS" } else { "OVER" };
        let name = format!("axis {axis}, of {:.0} microseconds", step[1]);
        println!("  {name:<42}{more:>10.2}{passes:>10.2}{bar:>10.2}  {verdict}");
    }
}

/// Four farms with what 100 roles hold there, and the same a second time beside it, with 100 other
/// roles: rows, pairs and results double.
fn more_farms(race: &Race) {
    println!();
    println!("growth of the library's step, eight farms with 200 roles over four with 100");
    let tables = [farms(4, 512), farms(8, 512)];
    let rows = tables[0].key.len();
    let once = spread_pairs(100, 20, 0..rows);
    let again = once.iter().map(|&(role, row)| (role + 100, row + rows));
    let mut steps = [once.clone(), once.iter().copied().chain(again).collect()].map(Step::new);
    for axis in 1..=11 {
        let mut least = [f64::INFINITY; 2];
        for _ in 0..TURNS {
            for ((table, step), least) in tables.iter().zip(&mut steps).zip(&mut least) {
                *least = least.min(time(race, table, step.any_node(axis)).ours);
            }
        }
        figure(
            &format!("axis {axis}, of {:.0} microseconds", least[1]),
            least[1] / least[0],
            FARMS_BAR,
        );
    }
}

/// Takes one step, so that its instructions can be counted.
pub fn one_step(engine: &dyn Engine, rows: &str, axis: &str, pairs: &str) {
    let table = plant(rows.parse().expect("a number of rows"));
    let mut step = Step::new(if pairs == "many" { many_pairs() } else { one_pair() });
    engine.step(&table, step.any_node(axis.parse().expect("an axis")));
}

/// Pairs on blades and setpoints in the first half of the plant: what is above, below or beside
/// them is the same in the half and in the whole.
fn many_pairs() -> Vec<(usize, usize)> {
    let level = plant(ROWS / 2).level;
    desk_pairs(65..1_985).into_iter().filter(|&(_, row)| level[row] >= 2).collect()
}

fn one_pair() -> Vec<(usize, usize)> {
    vec![(5, 2)]
}

/// The library's times for one step on both tables, which must answer it alike.
fn both_times(race: &Race, tables: &[Columns; 2], step: &mut Step) -> [f64; 2] {
    let [half, whole] = tables.each_ref().map(|table| race.ours.step(table, step));
    assert_eq!(half, whole, "the rows that were added change no result");
    let mut least = [f64::INFINITY; 2];
    for _ in 0..TURNS {
        let times = tables.each_ref().map(|table| time(race, table, step).ours);
        least = [least[0].min(times[0]), least[1].min(times[1])];
    }
    least
}
