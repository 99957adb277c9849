//! What must come up in a run beside the refusals, so that a generator that drifts is noticed.

mod batches;
mod carries;
mod finds;
mod items;
mod keys;
mod trees;

use crate::case::{Answer, Call, Case, Lists};
use crate::options::Part;
use batches::BATCHES;
use carries::{CARRIES, CIRCLES};
use finds::FINDS;
use items::ITEMS;
use keys::KEYS;
use trees::TREES;

const MOST_ROWS: usize = 4_096;
const MOST_PAIRS: usize = 4_096;

/// Something that some parts of the default run must each pose at least so many times.
pub struct Note {
    parts: &'static [Part],
    pub what: &'static str,
    pub least: u64,
    pub holds: Holds,
}

type Holds = fn(&Case, Answer) -> bool;

impl Note {
    pub fn belongs_to(&self, part: Part) -> bool {
        self.parts.contains(&part)
    }
}

/// All notes, in the order of the parts, then those about several trees and about shared buckets.
pub fn all() -> impl Iterator<Item = &'static Note> {
    let by_part = CHECKS.iter().chain(&FINDS).chain(&LISTS).chain(&STEPS).chain(&EDITS);
    let batches = ITEMS.iter().chain(&BATCHES);
    by_part.chain(&CARRIES).chain(batches).chain(&CIRCLES).chain(&TREES).chain(&KEYS)
}

/// How many notes there are.
pub const COUNT: usize = CHECKS.len()
    + FINDS.len()
    + LISTS.len()
    + STEPS.len()
    + EDITS.len()
    + CARRIES.len()
    + ITEMS.len()
    + BATCHES.len()
    + CIRCLES.len()
    + TREES.len()
    + KEYS.len();

/// The parts that notes are about.
const CHECK: &[Part] = &[Part::Check];
const STEP: &[Part] = &[Part::Step];
const EDIT: &[Part] = &[Part::Edit];
const CARRY: &[Part] = &[Part::Carry];
const BATCH: &[Part] = &[Part::Batch];
const CIRCLE: &[Part] = &[Part::Circle];
/// Those that pose lists of pairs, without an edit before.
const LIST: &[Part] = &[Part::Step, Part::Carry];
/// Those that pose one random table after the other.
const TABLE: &[Part] = &[Part::Check, Part::Step, Part::Edit];

const fn note(parts: &'static [Part], what: &'static str, least: u64, holds: Holds) -> Note {
    Note { parts, what, least, holds }
}

static CHECKS: [Note; 10] = [
    note(CHECK, "count 0", 1_000, |case, _| case.count == 0),
    note(CHECK, "a count above the shortest column", 1_000, |case, _| {
        case.count <= MOST_ROWS && case.count > case.table.shortest()
    }),
    note(CHECK, "columns of differing length", 1_000, |case, _| {
        case.table.each().iter().any(|column| column.len() > case.table.shortest())
    }),
    note(CHECK, "spare rows in every column, accepted", 1_000, |case, answer| {
        answer.refusal == 0 && case.table.shortest() > case.count
    }),
    note(CHECK, "4,096 rows, accepted", 50, |case, answer| {
        answer.refusal == 0 && case.count == MOST_ROWS
    }),
    note(CHECK, "4,097 rows that are all there", 50, |case, _| {
        case.count == MOST_ROWS + 1 && case.table.shortest() > MOST_ROWS
    }),
    note(CHECK, "level 63, accepted", 500, |case, answer| {
        answer.refusal == 0 && case.table.level[..case.count].contains(&63)
    }),
    note(CHECK, "level 64 in the least unsound row", 500, |case, answer| {
        answer.refusal == 2 && case.table.level[answer.place] == 64
    }),
    note(CHECK, "the largest key, accepted", 1_000, |case, answer| {
        answer.refusal == 0 && case.table.key[..case.count].contains(&usize::MAX)
    }),
    note(CHECK, "key 0 in the least unsound row", 1_000, |case, answer| {
        answer.refusal == 2 && case.table.key[answer.place] == 0
    }),
];

/// Lists of pairs and room for results, in steps and in carries.
static LISTS: [Note; 9] = [
    note(LIST, "no pairs, accepted", 1_000, |case, answer| {
        answer.refusal == 0 && lists_of(case).row.is_empty()
    }),
    note(LIST, "4,096 pairs, accepted", 50, |case, answer| {
        answer.refusal == 0 && lists_of(case).row.len() == MOST_PAIRS
    }),
    note(LIST, "too many pairs in columns of equal length", 50, |case, answer| {
        answer.refusal == 3 && lists_of(case).row.len() == lists_of(case).role.len()
    }),
    note(LIST, "equal pairs, accepted", 1_000, |case, answer| {
        let pairs = |place: usize| (lists_of(case).role[place], lists_of(case).row[place]);
        answer.refusal == 0 && (1..lists_of(case).row.len()).any(|at| pairs(at) == pairs(at - 1))
    }),
    note(LIST, "empty result columns, refused", 1_000, |case, answer| {
        answer.refusal == 8 && lists_of(case).room() == 0
    }),
    note(LIST, "result columns too short by one", 1_000, |case, answer| {
        answer.refusal == 8 && lists_of(case).room() + 1 == answer.place
    }),
    note(LIST, "result columns exactly filled", 1_000, |case, answer| {
        answer.refusal == 0 && answer.first > 0 && answer.first == lists_of(case).room()
    }),
    note(LIST, "result columns with room to spare", 1_000, |case, answer| {
        answer.refusal == 0 && answer.first > 0 && answer.first < lists_of(case).room()
    }),
    note(LIST, "result columns of unequal length", 1_000, |case, _| {
        lists_of(case).out_role.len() != lists_of(case).out_row.len()
    }),
];

static STEPS: [Note; 2] = [
    note(STEP, "more than 1,000 roles, accepted", 50, |case, answer| {
        answer.refusal == 0 && lists_of(case).role.chunk_by(usize::eq).count() > 1_000
    }),
    note(STEP, "more than 100,000 results", 30, |_, answer| {
        answer.first.max(answer.place) > 100_000
    }),
];

static EDITS: [Note; 6] = [
    note(EDIT, "4,096 rows exactly reached", 50, |case, answer| {
        answer.first == MOST_ROWS && answer.moved > 0 && case.count < MOST_ROWS
    }),
    note(EDIT, "4,096 rows passed by one", 50, |case, answer| {
        answer.refusal == 14 && case.count + piece_rows(case) == MOST_ROWS + 1
    }),
    note(EDIT, "no spare row in some column", 1_000, |case, answer| {
        answer.refusal == 14 && case.table.shortest() == case.count
    }),
    note(EDIT, "one row too little in some column", 1_000, |case, answer| {
        answer.refusal == 14 && case.count + piece_rows(case) == case.table.shortest() + 1
    }),
    note(EDIT, "insertion at the very end", 1_000, |case, answer| {
        answer.moved > 0 && answer.second == case.count
    }),
    note(EDIT, "deletion at the very end", 1_000, |case, answer| {
        answer.moved < 0 && answer.second == case.count
    }),
];

fn lists_of(case: &Case) -> &Lists {
    case.lists().expect("this part poses only calls with a list of pairs")
}

fn piece_rows(case: &Case) -> usize {
    match &case.call {
        Call::Insert(insert) => insert.piece_count,
        _ => 0,
    }
}
