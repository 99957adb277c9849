//! Random sound tables, and the spare rows behind them.

use crate::keys::{sharing_keys, some_keys};
use crate::random::Random;
use lent::{sizes, Columns};
use std::iter::once;

/// The ways a tree can look.
#[derive(Clone, Copy)]
enum Shape {
    /// Every row a child of the root.
    Star,
    /// As deep as it may go, again and again.
    Chains,
    /// Any level that is allowed, each as likely as the others.
    Bushy,
    /// Mostly one deeper than the row before.
    Climbing,
    /// Mostly beside the row before.
    Beside,
}

const SHAPES: [Shape; 5] =
    [Shape::Star, Shape::Chains, Shape::Bushy, Shape::Climbing, Shape::Beside];

/// A sound table of so many rows, with no level above `deepest`, which is not 0. Half of the tables
/// are one tree.
pub fn sound(random: &mut Random, rows: usize, deepest: usize) -> Columns {
    let trees = match random.below(20) {
        0..=9 => 1,
        10..=12 => 2,
        13..=15 => random.within(2, 12),
        16 | 17 => random.within(1, rows),
        _ => rows,
    };
    sound_trees(random, rows, trees.min(rows), deepest)
}

/// The same with so many trees: at least one, and no more than there are rows.
pub fn sound_trees(random: &mut Random, rows: usize, trees: usize, deepest: usize) -> Columns {
    let roots = roots(random, rows, trees);
    let level = levels(random, &roots, rows, deepest);
    with_levels(random, level)
}

/// A sound table of one tree: a chain of so many rows, and below it so many rows with one above all
/// the others.
pub fn sound_below(random: &mut Random, chain: usize, rows: usize) -> Columns {
    let below = levels(random, &[0], rows, 63 - chain);
    with_levels(random, (0..chain).chain(below.into_iter().map(|level| chain + level)).collect())
}

/// A sound table with these levels.
fn with_levels(random: &mut Random, level: Vec<usize>) -> Columns {
    let size = sizes(&level);
    let kind = kinds(random, &level, &size);
    let name = kind.iter().map(|&kind| name_for(random, kind)).collect();
    Columns { key: some_keys(random, level.len()), size, level, kind, name }
}

/// A sound table of so many rows whose keys share buckets, and so many other keys of these buckets.
pub fn sound_sharing(random: &mut Random, rows: usize, others: usize) -> (Columns, Vec<usize>) {
    let mut key = sharing_keys(random, rows + others, rows);
    let others = key.split_off(rows);
    (Columns { key, ..sound(random, rows, 63) }, others)
}

/// Where the trees start: anywhere, or all but the last are of one row, or all but the first.
fn roots(random: &mut Random, rows: usize, trees: usize) -> Vec<usize> {
    let mut later: Vec<usize> = (1..rows).collect();
    match random.below(4) {
        0 => {}
        1 => later.reverse(),
        _ => random.shuffle(&mut later),
    }
    let mut roots = vec![0];
    roots.extend(&later[..trees - 1]);
    roots.sort_unstable();
    roots
}

/// The levels of trees that start at these rows. Each tree has a shape of its own.
fn levels(random: &mut Random, roots: &[usize], rows: usize, deepest: usize) -> Vec<usize> {
    let mut levels = Vec::with_capacity(rows);
    for &end in roots[1..].iter().chain(once(&rows)) {
        let shape = random.pick(&SHAPES);
        levels.push(0);
        while levels.len() < end {
            let next = next_level(random, shape, levels[levels.len() - 1], deepest);
            levels.push(next);
        }
    }
    levels
}

/// A level for the row after one of level `before`, in the same tree.
fn next_level(random: &mut Random, shape: Shape, before: usize, deepest: usize) -> usize {
    let most = deepest.min(before + 1);
    match shape {
        Shape::Star => 1,
        Shape::Chains if before < deepest => most,
        Shape::Climbing if random.chance(70) => most,
        Shape::Beside if random.chance(70) => before.max(1),
        _ => random.within(1, most),
    }
}

/// Kinds that fit the sizes; now and then a root is a document.
fn kinds(random: &mut Random, level: &[usize], size: &[usize]) -> Vec<usize> {
    let mut kinds: Vec<usize> = size
        .iter()
        .map(|&size| if size > 0 { 1 } else { random.pick(&[1, 1, 1, 2, 3, 4]) })
        .collect();
    for root in (0..level.len()).filter(|&row| level[row] == 0) {
        if random.chance(25) {
            kinds[root] = 0;
        }
    }
    kinds
}

/// A name that fits the kind: few different ones, so that tests by name find some.
fn name_for(random: &mut Random, kind: usize) -> usize {
    match kind {
        1 | 4 => match random.below(20) {
            0 => usize::MAX,
            1 => random.number() | 1,
            _ => random.within(1, 4),
        },
        _ => 0,
    }
}

/// A root among the first `count` rows of a sound table.
pub fn some_root(random: &mut Random, table: &Columns, count: usize) -> usize {
    let roots: Vec<usize> = (0..count).filter(|&row| table.level[row] == 0).collect();
    random.pick(&roots)
}

/// A key for an own purpose: one of the table's, one that spare rows hold, 0, or any other.
pub fn some_key(random: &mut Random, table: &Columns, count: usize) -> usize {
    match random.below(20) {
        0 => 0,
        1 => usize::MAX,
        2 => random.number(),
        3 => random.within(1, 30),
        4 => table.key.get(count).copied().unwrap_or(1),
        _ if table.key.is_empty() => 1,
        _ => table.key[random.below(count.clamp(1, table.key.len()))],
    }
}

/// Lengthens the columns by up to so many spare rows, filled with garbage: none of them, all by
/// the same number, or each by its own.
pub fn add_spare_rows(random: &mut Random, table: &mut Columns, most: usize) {
    let same = match random.below(4) {
        0 => Some(0),
        1 => Some(random.within(0, most)),
        _ => None,
    };
    for column in table.each_mut() {
        let spare = same.unwrap_or_else(|| random.within(0, most));
        lengthen(random, column, spare);
    }
}

/// Lengthens a column by garbage: what it holds already, the least and largest numbers, any.
pub fn lengthen(random: &mut Random, column: &mut Vec<usize>, by: usize) {
    for _ in 0..by {
        let rubbish = match random.below(5) {
            0 => 0,
            1 => usize::MAX,
            2 => random.within(1, 5),
            3 if !column.is_empty() => column[random.below(column.len())],
            _ => random.number(),
        };
        column.push(rubbish);
    }
}

/// A column of nothing but garbage.
pub fn garbage(random: &mut Random, length: usize) -> Vec<usize> {
    let mut column = Vec::with_capacity(length);
    lengthen(random, &mut column, length);
    column
}

/// A chain of so many elements, each the child of the one before.
pub fn chain(rows: usize) -> Columns {
    let level: Vec<usize> = (0..rows).collect();
    Columns {
        key: (1..=rows).collect(),
        size: sizes(&level),
        level,
        kind: vec![1; rows],
        name: vec![1; rows],
    }
}
