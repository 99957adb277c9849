//! Pairs carried over an edit of a plant of 4,096 rows.

use crate::race::{Race, Times};
use crate::report::{figure, Group};
use crate::steps::{spread_pairs, ROWS};
use crate::tables::plant;
use lent::scattered_key;

/// A carry takes at most so many times what plain Rust takes.
const BAR: f64 = 1.3;
/// Twice the pairs take at most so many times the time.
const GROWTH_BAR: f64 = 2.3;
/// No carry takes longer than the check of a table with as many rows as there are pairs.
const CHECK_BAR: f64 = 1.0;

/// An edit by what it answers: the old count, the first moved row, the move.
type Edit = (usize, usize, i64);

/// A row is put under row 3, the first setpoint of the first blade.
const INSERTION: Edit = (ROWS - 1, 4, 1);
/// The first turbine goes: rows 1 to 64.
const DELETION: Edit = (ROWS, 65, -64);
/// Half of all rows go.
const HALVING: Edit = (ROWS, 3_072, -2_048);
/// The first of nine farms goes, row 0 and all.
const FARM: Edit = (9 * 455, 455, -455);

/// With fewer lists by turns the processor learns which of their pairs are dropped.
const LISTS: usize = 16;

/// The pairs of a carry, and the edit.
pub struct Carry {
    pub role: Vec<usize>,
    pub row: Vec<usize>,
    pub old_count: usize,
    pub first: usize,
    pub moved: i64,
}

/// The columns that a new list is written to.
pub struct Room {
    pub out_role: Vec<usize>,
    pub out_row: Vec<usize>,
}

impl Carry {
    fn new(pairs: Vec<(usize, usize)>, (old_count, first, moved): Edit) -> Carry {
        let (role, row) = pairs.into_iter().unzip();
        Carry { role, row, old_count, first, moved }
    }
}

pub fn run(race: &Race) {
    let mut group = Group::new("carry of 4,096 pairs, microseconds a call");
    let (mut longest, mut growth) = (0.0, Vec::new());
    for ((name, whole), (_, half)) in carries(ROWS).into_iter().zip(carries(ROWS / 2)) {
        let times = time(race, &whole);
        group.line_with_bar(name, times, BAR);
        longest = times.ours.max(longest);
        growth.push((name, times.ours / time(race, &half).ours));
    }
    group.mean();
    println!();
    println!("growth of the library's carry, 4,096 over 2,048 pairs");
    for (name, ratio) in growth {
        figure(name, ratio, GROWTH_BAR);
    }
    let table = plant(ROWS);
    let check = race.time(|engine| engine.check(&table)).ours;
    figure("the longest carry over the check of 4,096 rows", longest / check, CHECK_BAR);
}

/// What is timed, with so many pairs.
fn carries(pairs: usize) -> [(&'static str, Vec<Carry>); 5] {
    let desk = |rows: std::ops::Range<usize>| spread_pairs(pairs / 16, 16, rows);
    let halved = |list: usize| Carry::new(shuffled_pairs(list, pairs), HALVING);
    [
        ("insert near the front", vec![Carry::new(desk(0..ROWS - 1), INSERTION)]),
        ("delete near the front, some pairs go", vec![Carry::new(desk(0..ROWS), DELETION)]),
        ("delete near the front, no pair goes", vec![Carry::new(desk(65..ROWS), DELETION)]),
        ("delete half the rows, half the pairs go", (0..LISTS).map(halved).collect()),
        ("delete the first of nine farms", vec![Carry::new(desk(0..9 * 455), FARM)]),
    ]
}

/// So many roles with one pair each, their rows all over the table and in no order.
fn shuffled_pairs(list: usize, pairs: usize) -> Vec<(usize, usize)> {
    let mut rows: Vec<usize> = (0..pairs).map(|number| number * (ROWS / pairs)).collect();
    for last in (1..pairs).rev() {
        rows.swap(last, scattered_key(list * ROWS + last) % (last + 1));
    }
    rows.into_iter().enumerate().collect()
}

/// Carries the lists by turns.
fn time(race: &Race, carries: &[Carry]) -> Times {
    let mut room = Room { out_role: vec![0; ROWS], out_row: vec![0; ROWS] };
    let mut turns = carries.iter().cycle();
    race.time(|engine| engine.carry(turns.next().expect("there is a list"), &mut room))
}
