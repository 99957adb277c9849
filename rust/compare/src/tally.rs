//! How many calls were posed, and how they were answered.

use crate::case::{Answer, Call, Case, Entry};
use crate::notes;
use crate::options::Part;

/// Refusals 1 to 18; number 0 is an accepted call.
const NUMBERS: usize = 19;
const AXES: usize = 11;
const TESTS: usize = 8;

/// How often a refusal must come up in each part that can give it.
const LEAST_REFUSALS: u64 = 1_000;
/// How many finds there must be, and how many batches.
const LEAST_FINDS: u64 = 200_000;
const LEAST_BATCHES: u64 = 200_000;
/// How often each axis with each test must be accepted.
const LEAST_STEPS: u64 = 1_000;

/// What came up so far in one part of the run.
#[derive(Clone)]
pub struct Tally {
    part: Part,
    /// For each function of the library, how often each refusal was given.
    answers: [[u64; NUMBERS]; Entry::ALL.len()],
    /// For each axis and test, how many steps were accepted.
    steps: [[u64; TESTS]; AXES],
    /// How often each note held.
    notes: [u64; notes::COUNT],
}

impl Tally {
    pub fn new(part: Part) -> Tally {
        Tally {
            part,
            answers: Default::default(),
            steps: Default::default(),
            notes: [0; notes::COUNT],
        }
    }

    pub fn add(&mut self, case: &Case, answer: Answer) {
        self.answers[case.entry() as usize][answer.refusal] += 1;
        if let (Call::Step(step), 0) = (&case.call, answer.refusal) {
            self.steps[step.axis - 1][step.test] += 1;
        }
        for (times, note) in self.notes.iter_mut().zip(notes::all()) {
            *times += u64::from(note.belongs_to(self.part) && (note.holds)(case, answer));
        }
    }

    /// Takes over the answers of another part.
    pub fn merge(&mut self, other: &Tally) {
        let own = self.answers.iter_mut().flatten();
        own.zip(other.answers.iter().flatten()).for_each(|(own, other)| *own += other);
    }

    pub fn calls(&self) -> u64 {
        self.answers.iter().flatten().sum()
    }

    /// How often the refusal was given, by whatever function.
    fn refusals(&self, number: usize) -> u64 {
        self.answers.iter().map(|answers| answers[number]).sum()
    }

    /// Says what came up less often than it must.
    pub fn demand(&self) -> Result<(), String> {
        let refusals: &[usize] = match self.part {
            Part::Check => &[1, 2, 9],
            Part::Step => &[1, 2, 3, 4, 5, 6, 7, 8],
            Part::Edit => &[1, 2, 9, 10, 11, 12, 13, 14, 15, 16],
            Part::Carry => &[1, 3, 4, 5, 8, 17],
            Part::Batch => &[1, 2, 9, 15, 16, 18],
            Part::Farm | Part::Circle | Part::Commute | Part::Trees => &[],
        };
        for &number in refusals {
            at_least(&format!("refusal {number}"), self.refusals(number), LEAST_REFUSALS)?;
        }
        for (times, note) in self.notes.iter().zip(notes::all()) {
            if note.belongs_to(self.part) {
                at_least(note.what, *times, note.least)?;
            }
        }
        match self.part {
            Part::Check => self.demand_finds(),
            Part::Batch => at_least("batch", self.calls(), LEAST_BATCHES),
            Part::Step => self.demand_each_axis_and_test(),
            _ => Ok(()),
        }
    }

    /// Checks have most of the refusals that a find has, so it is counted by itself too.
    fn demand_finds(&self) -> Result<(), String> {
        let answers = &self.answers[Entry::Find as usize];
        at_least("find", answers.iter().sum(), LEAST_FINDS)?;
        for number in [1, 2, 9] {
            at_least(&format!("refusal {number} of find"), answers[number], LEAST_REFUSALS)?;
        }
        Ok(())
    }

    fn demand_each_axis_and_test(&self) -> Result<(), String> {
        for (axis, tests) in self.steps.iter().enumerate() {
            for (test, times) in tests.iter().enumerate() {
                at_least(&format!("axis {} with test {test}", axis + 1), *times, LEAST_STEPS)?;
            }
        }
        Ok(())
    }

    /// What the part must have posed, and how often it did: a line for each.
    pub fn notes(&self) -> String {
        let all = self.notes.iter().zip(notes::all());
        let own = all.filter(|(_, note)| note.belongs_to(self.part));
        own.map(|(times, note)| format!("{times:>12}  {}\n", note.what)).collect()
    }

    /// The table of all calls, a column for each function.
    pub fn print(&self) {
        print!("{:>12}", "");
        for entry in Entry::ALL {
            print!("{:>11}", entry.name());
        }
        println!();
        for number in (0..NUMBERS).filter(|&number| self.refusals(number) > 0) {
            match number {
                0 => print!("{:>12}", "accepted"),
                _ => print!("{:>12}", format!("refusal {number}")),
            }
            for answers in &self.answers {
                print!("{:>11}", answers[number]);
            }
            println!();
        }
        print!("{:>12}", "calls");
        for answers in &self.answers {
            print!("{:>11}", answers.iter().sum::<u64>());
        }
        println!();
    }
}

/// Says so if something came up less often than it must.
pub fn at_least(what: &str, times: u64, least: u64) -> Result<(), String> {
    if times < least {
        return Err(format!("{what}: came up {times} times, and must at least {least} times"));
    }
    Ok(())
}
