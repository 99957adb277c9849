//! A batch answers and leaves what its items do as calls of their own, one after the other. This is
//! put together here, by calls of the engine itself, and left to neither program.

use crate::case::{Answer, Call, Case};
use crate::engine::Engine;
use crate::judge::{Difference, Judge};
use lent::{Items, MOST_ITEMS};

/// Poses a batch, which must come to the same as the calls one by one.
pub fn pose(judge: &mut Judge<'_>, case: Case) -> Result<(), Difference> {
    let Call::Batch(items) = &case.call else {
        unreachable!("only batches are posed one by one");
    };
    let (stated, after) = one_by_one(judge.engine, &case, items);
    judge.pose_stated("the calls one by one", case, stated, after)
}

/// The answer that the calls come to, and what they leave.
fn one_by_one(engine: &dyn Engine, case: &Case, items: &Items) -> (Answer, Case) {
    let mut kept = Case { call: Call::Check, ..case.clone() };
    let checked = engine.answer(&mut kept);
    let stopped = match checked.refusal {
        0 if is_good(items) => None,
        0 => Some(Answer::refused(18, 0)),
        _ => Some(checked),
    };
    if let Some(refused) = stopped {
        return (Answer { second: case.count, ..refused }, case.clone());
    }
    let mut answer = Answer::default();
    for call in calls(items) {
        kept.call = call;
        let edited = engine.answer(&mut kept);
        if edited.refusal != 0 {
            (answer.refusal, answer.place) = (edited.refusal, edited.place);
            break;
        }
        kept.count = edited.first;
        answer.first += 1;
    }
    answer.second = kept.count;
    (answer, Case { table: kept.table, ..case.clone() })
}

/// Whether a list can be done at all.
pub fn is_good(items: &Items) -> bool {
    let lengths = items.each().map(Vec::len);
    let most = lengths[0].min(MOST_ITEMS);
    lengths == [most; 3] && items.code.iter().all(|code| [1, 2].contains(code))
}

/// What each item of a good list asks.
fn calls(items: &Items) -> impl Iterator<Item = Call> + '_ {
    (0..items.code.len()).map(|place| {
        let key_wanted = items.key[place];
        match items.code[place] {
            1 => Call::Delete { key_wanted },
            _ => Call::Rename { key_wanted, new_name: items.name[place] },
        }
    })
}
