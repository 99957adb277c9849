//! Random edits.

use crate::case::{Call, Case, Insert};
use crate::damage::{repeat_key, spoil};
use crate::judge::{Difference, Judge};
use crate::keys::sharing_rows;
use crate::options::Part;
use crate::random::Random;
use crate::series::{self, Series};
use crate::tables::{
    add_spare_rows, chain, lengthen, some_key, some_root, sound, sound_sharing, sound_trees,
};
use lent::{scattered_key, Columns};

/// How many edits of small tables the default run makes.
pub const CALLS: u64 = 400_000;

/// Small tables, then tall ones about the deepest level, then large ones about the most rows and
/// the most trees, then some whose keys share buckets.
pub fn run(judge: &mut Judge<'_>, seed: u64, calls: u64) -> Result<(), Difference> {
    let all: [Series; 5] = [
        ("edit small", calls, small),
        ("edit tall", calls / 20, tall),
        ("edit large", calls / 500, large),
        ("edit most trees", calls / 1_000, most_trees),
        ("edit shared buckets", calls / 50, shared_buckets),
    ];
    series::run(Part::Edit, seed, &all, |_, case| judge.pose(case).map(drop))
}

fn small(random: &mut Random) -> Case {
    let rows = random.within(1, 12);
    let mut table = sound(random, rows, 12);
    add_spare_rows(random, &mut table, 12);
    let call = any_edit(random, &table, rows, 6);
    maybe_spoiled(random, table, rows, call)
}

/// A table and a piece that come near the deepest level together.
fn tall(random: &mut Random) -> Case {
    let rows = random.within(30, 70);
    let mut table = sound(random, rows, 63);
    add_spare_rows(random, &mut table, 70);
    let parent = random.below(rows);
    let depth = random.within(60, 65).saturating_sub(table.level[parent] + 1).min(63);
    let call = if random.chance(70) {
        let mut piece = chain(depth + 1);
        give_fresh_keys(random, &mut piece);
        Call::Insert(Insert { parent_key: table.key[parent], piece, piece_count: depth + 1 })
    } else {
        any_edit(random, &table, rows, 64)
    };
    maybe_spoiled(random, table, rows, call)
}

/// A table and a piece that come near the most rows together, with or without the columns for
/// it.
fn large(random: &mut Random) -> Case {
    let piece_rows = random.pick(&[1, 2, 100, 500]);
    let rows = match random.below(6) {
        0 | 1 => 4_096 - piece_rows,
        2 | 3 => 4_097 - piece_rows,
        4 => 4_096,
        _ => random.within(13, 4_096),
    };
    let mut table = sound(random, rows, 63);
    let length = random.pick(&[4_096, 4_100, rows, rows + piece_rows - 1, 4_700]).max(rows);
    for column in table.each_mut() {
        lengthen(random, column, length - rows);
    }
    if random.chance(30) {
        add_spare_rows(random, &mut table, 3);
    }
    let call = if random.chance(70) {
        let parent_key = element_at_root(random, &mut table, rows);
        let piece = fresh_piece(random, piece_rows);
        Call::Insert(Insert { parent_key, piece, piece_count: piece_rows })
    } else {
        any_edit(random, &table, rows, 600)
    };
    Case { table, count: rows, call }
}

/// A table of as many trees as it can have, of one row each.
fn most_trees(random: &mut Random) -> Case {
    let rows = 4_096;
    let table = sound_trees(random, rows, rows, 63);
    let between = random.below(rows);
    let row = random.pick(&[0, between, between, rows - 1]);
    let call = fitting_edit(random, &table, row);
    Case { table, count: rows, call }
}

/// A table and a piece whose keys fall into the same buckets. The keys of the piece stand in the
/// table's spare rows, and now and then one of them in a row in use.
fn shared_buckets(random: &mut Random) -> Case {
    let rows = sharing_rows(random);
    let piece_rows = random.pick(&[1, 4, 5, 12, 70, 520]);
    let (mut table, others) = sound_sharing(random, rows, piece_rows);
    for column in table.each_mut() {
        lengthen(random, column, piece_rows);
    }
    table.key[rows..].copy_from_slice(&others);
    let call = if random.chance(75) {
        let parent_key = element_at_root(random, &mut table, rows);
        let mut piece = Columns { key: others, ..fresh_piece(random, piece_rows) };
        take_keys(random, &table.key[..rows], &mut piece);
        Call::Insert(Insert { parent_key, piece, piece_count: piece_rows })
    } else {
        any_edit(random, &table, rows, 6)
    };
    if random.chance(10) {
        repeat_key(random, &mut table, rows);
    }
    Case { table, count: rows, call }
}

/// Gives some rows of a piece, up to two, a key of a table: its first, or any. Now and then a key
/// stands twice in the piece instead.
fn take_keys(random: &mut Random, keys: &[usize], piece: &mut Columns) {
    if random.chance(10) {
        return repeat_key(random, piece, piece.key.len());
    }
    for _ in 0..random.pick(&[0, 0, 1, 2]) {
        let row = random.below(piece.key.len());
        let any = random.below(keys.len());
        piece.key[row] = keys[random.pick(&[0, any])];
    }
}

/// Makes a root an element, which takes any piece, and gives its key.
fn element_at_root(random: &mut Random, table: &mut Columns, rows: usize) -> usize {
    let root = some_root(random, table, rows);
    (table.kind[root], table.name[root]) = (1, 1);
    table.key[root]
}

/// Nine of ten tables stay sound.
fn maybe_spoiled(random: &mut Random, mut table: Columns, rows: usize, call: Call) -> Case {
    let mut count = rows;
    if random.chance(10) {
        spoil(random, &mut table, &mut count);
    }
    Case { table, count, call }
}

/// Any edit, with a piece of up to so many rows.
fn any_edit(random: &mut Random, table: &Columns, count: usize, most_piece: usize) -> Call {
    let key_wanted = some_key(random, table, count);
    match random.below(4) {
        0 | 1 => Call::Insert(insertion(random, key_wanted, table, most_piece)),
        2 => Call::Delete { key_wanted },
        _ => Call::Rename { key_wanted, new_name: random.pick(&[0, 1, 2, 3, 4, 5, 6, usize::MAX]) },
    }
}

fn insertion(random: &mut Random, parent_key: usize, table: &Columns, most_piece: usize) -> Insert {
    let rows = random.within(1, most_piece);
    let trees = if random.chance(8) { random.within(1, rows) } else { 1 };
    let mut piece = fresh_trees(random, rows, trees);
    let mut piece_count = rows;
    add_spare_rows(random, &mut piece, 2);
    if random.chance(8) {
        (piece.kind[0], piece.name[0]) = (0, 0);
    }
    if random.chance(8) {
        spoil(random, &mut piece, &mut piece_count);
    }
    if random.chance(10) && !piece.key.is_empty() {
        let row = random.below(piece.key.len());
        piece.key[row] = table.key[random.below(table.key.len())];
    }
    Insert { parent_key, piece, piece_count }
}

/// An edit that the row's kind allows.
pub fn fitting_edit(random: &mut Random, table: &Columns, row: usize) -> Call {
    let key = table.key[row];
    let delete = Call::Delete { key_wanted: key };
    let rename = Call::Rename { key_wanted: key, new_name: random.within(1, 5) };
    let piece_count = random.within(1, 5);
    let piece = fresh_piece(random, piece_count);
    let insert = Call::Insert(Insert { parent_key: key, piece, piece_count });
    match (table.kind[row], random.below(4)) {
        (0, 0..=2) | (1, 0 | 1) => insert,
        (1 | 4, 2) => rename,
        _ => delete,
    }
}

/// A sound piece that starts with no document and whose keys no table here has.
fn fresh_piece(random: &mut Random, rows: usize) -> Columns {
    fresh_trees(random, rows, 1)
}

/// The same with so many trees.
fn fresh_trees(random: &mut Random, rows: usize, trees: usize) -> Columns {
    let mut piece = sound_trees(random, rows, trees, 63);
    if piece.kind[0] == 0 {
        piece.kind[0] = 1;
        piece.name[0] = random.within(1, 4);
    }
    give_fresh_keys(random, &mut piece);
    piece
}

fn give_fresh_keys(random: &mut Random, piece: &mut Columns) {
    let start = random.number();
    for (row, key) in piece.key.iter_mut().enumerate() {
        *key = scattered_key(start.wrapping_add(row));
    }
}
