//! The whole circle, as an administrator goes round it: an edit, the pairs carried over it, a step
//! with the carried pairs as they are, and the next edit.

use crate::case::{Call, Lists, Step};
use crate::edits::fitting_edit;
use crate::judge::{Difference, Judge};
use crate::kept::Kept;
use crate::lists::{ascending_pairs, lend_some_room};
use crate::options::Part;
use crate::progress::Progress;
use crate::random::Random;
use crate::tables::{lengthen, sound};

/// How many circles the default run makes.
pub const CIRCLES: u64 = 40_000;

/// The most edits of one circle, and room for what they insert.
const MOST_EDITS: usize = 3;
const SPARE: usize = 15;

/// Goes round with one table after the other.
pub fn run(judge: &mut Judge<'_>, seed: u64, circles: u64) -> Result<(), Difference> {
    let mut progress = Progress::new(Part::Circle, circles);
    for number in 0..circles {
        let random = &mut Random::for_call(seed, "circle", number);
        let mut kept = any(random, number);
        for _ in 0..random.within(1, MOST_EDITS) {
            kept = go_round(kept, judge, random)?;
        }
        progress.advance();
    }
    Ok(())
}

/// A table with some pairs; mostly small, now and then large.
fn any(random: &mut Random, number: u64) -> Kept {
    let (rows, pairs) = match number % 2_000 {
        999 => (random.pick(&[2_000, 4_081]), random.within(13, 400)),
        _ => (random.within(2, 12), random.within(0, 12)),
    };
    let mut table = sound(random, rows, 12);
    for column in table.each_mut() {
        lengthen(random, column, SPARE);
    }
    let roles = random.within(1, 4);
    let (role, row) = ascending_pairs(random, pairs, roles, rows);
    Kept { table, count: rows, lists: Lists { role, row, ..Lists::default() } }
}

/// An edit and a step with the pairs carried over it. An edit that is refused changes nothing.
fn go_round(kept: Kept, judge: &mut Judge<'_>, random: &mut Random) -> Result<Kept, Difference> {
    let row = random.below(kept.count);
    let edit = fitting_edit(random, &kept.table, row);
    let Some(kept) = kept.after(judge, &edit)? else {
        return Ok(kept);
    };
    let mut step =
        Step { lists: kept.lists.clone(), axis: random.within(1, 11), ..Step::default() };
    lend_some_room(random, &mut step.lists);
    let case = kept.asks(Call::Step(step));
    let (answer, _) = judge.pose(case.clone())?;
    if !matches!(answer.refusal, 0 | 8) {
        return Err(judge.tell(&case, "it refuses a step with the carried pairs"));
    }
    Ok(kept)
}
