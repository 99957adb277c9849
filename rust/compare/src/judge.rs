//! Holds an engine against the second program, one call at a time.

use crate::case::{Answer, Case};
use crate::engine::{Engine, Second};
use crate::options::Part;
use crate::tally::Tally;
use std::panic::{catch_unwind, AssertUnwindSafe};
use std::sync::OnceLock;

/// An answer, or anything in a lent column, that differs: told in words, with the input.
pub struct Difference(pub String);

/// Poses calls to an engine and to the second program, and counts them.
pub struct Judge<'a> {
    pub engine: &'a dyn Engine,
    pub tally: Tally,
    /// What the part says at its end beside its notes.
    pub summary: String,
    /// What ended the run, in whichever part; then no more calls are posed.
    ended: &'a OnceLock<String>,
}

impl<'a> Judge<'a> {
    pub fn new(engine: &'a dyn Engine, part: Part, ended: &'a OnceLock<String>) -> Judge<'a> {
        Judge { engine, tally: Tally::new(part), summary: String::new(), ended }
    }

    /// Both must give the same answer and leave the same in every place of every lent column.
    /// Gives that answer and the case as it is left.
    pub fn pose(&mut self, case: Case) -> Result<(Answer, Case), Difference> {
        if self.ended.get().is_some() {
            return Err(Difference("the run has ended in another part".to_string()));
        }
        let mut by_engine = case.clone();
        let mut by_second = case.clone();
        let wanted = Second.answer(&mut by_second);
        let answer = match catch_unwind(AssertUnwindSafe(|| self.engine.answer(&mut by_engine))) {
            Ok(answer) => answer,
            Err(_) => return Err(self.tell(&case, "it panicked")),
        };
        if answer != wanted {
            return Err(self.tell(&case, &format!("it answers {answer:?}\nnot        {wanted:?}")));
        }
        if by_engine != by_second {
            return Err(self.tell(&case, &first_other_place(&by_engine, &by_second)));
        }
        self.tally.add(&case, answer);
        Ok((answer, by_engine))
    }

    /// As `pose`, and the answer and the columns afterwards must be those stated.
    pub fn pose_stated(
        &mut self,
        name: &str,
        case: Case,
        stated: Answer,
        after: Case,
    ) -> Result<(), Difference> {
        let posed = case.clone();
        let (answer, left) = self.pose(case)?;
        if answer != stated {
            let told = format!("case {name}: the answer is {answer:?}\nstated     {stated:?}");
            return Err(self.tell(&posed, &told));
        }
        if left != after {
            let told = format!("case {name}: {}", first_other_place(&left, &after));
            return Err(self.tell(&posed, &told));
        }
        Ok(())
    }

    /// Says what is wrong with an answer, and the input.
    pub fn tell(&self, case: &Case, what: &str) -> Difference {
        Difference(format!("{} differs: {what}\non this input:\n{case}", self.engine.name()))
    }
}

/// Says where the first column differs.
fn first_other_place(left: &Case, wanted: &Case) -> String {
    for ((name, left), (_, wanted)) in left.lent().into_iter().zip(wanted.lent()) {
        let mut places = 0..left.len().max(wanted.len());
        if let Some(place) = places.find(|&place| left.get(place) != wanted.get(place)) {
            let (left, wanted) = (left.get(place), wanted.get(place));
            return format!("it leaves {name}[{place}] = {left:?}, not {wanted:?}");
        }
    }
    "it changed the call itself".to_string()
}
