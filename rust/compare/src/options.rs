//! What the command line asks for.

/// The parts of a run.
#[derive(Clone, Copy, PartialEq, Eq)]
pub enum Part {
    /// The stated cases of the small farm.
    Farm,
    /// Check and find, which are posed together.
    Check,
    Step,
    Edit,
    Carry,
    Batch,
    /// An edit, a carry over it and a step with what is carried.
    Circle,
    /// Two edits in both orders.
    Commute,
    /// A step over several trees, and on each of them.
    Trees,
}

impl Part {
    /// What its calls are, as the lines that tell how far it is name them.
    pub fn title(self) -> &'static str {
        match self {
            Part::Farm => "stated cases",
            Part::Check => "check and find",
            Part::Step => "step",
            Part::Edit => "edit",
            Part::Carry => "carry",
            Part::Batch => "batch",
            Part::Circle => "circles of edit, carry and step",
            Part::Commute => "pairs of edits",
            Part::Trees => "steps on tables and on their trees",
        }
    }
}

/// The options of a run.
pub struct Options {
    pub engine: String,
    pub seed: u64,
    /// About how many calls to make in all; the default run makes as many as each part's constant says.
    pub calls: Option<u64>,
    pub only: Option<Part>,
}

const USAGE: &str = "usage: compare [--engine library|plain|piped:COMMAND] [--seed N] [--calls N] \
                     [--only check|find|step|edit|carry|batch|circle|commute|trees]";

impl Options {
    /// Reads the words of the command line.
    pub fn read(mut words: impl Iterator<Item = String>) -> Result<Options, String> {
        let engine = if cfg!(feature = "library") { "library" } else { "plain" };
        let mut options = Options { engine: engine.to_string(), seed: 1, calls: None, only: None };
        while let Some(word) = words.next() {
            let value = words.next().ok_or(USAGE)?;
            match word.as_str() {
                "--engine" => options.engine = value,
                "--seed" => options.seed = value.parse().map_err(|_| USAGE)?,
                "--calls" => options.calls = Some(value.parse().map_err(|_| USAGE)?),
                "--only" => options.only = Some(part(&value)?),
                _ => return Err(USAGE.to_string()),
            }
        }
        Ok(options)
    }

    /// Whether a part is asked for; without a choice, every part is.
    pub fn chooses(&self, part: Part) -> bool {
        self.only.is_none_or(|only| only == part)
    }
}

fn part(word: &str) -> Result<Part, String> {
    match word {
        "check" | "find" => Ok(Part::Check),
        "step" => Ok(Part::Step),
        "edit" => Ok(Part::Edit),
        "carry" => Ok(Part::Carry),
        "batch" => Ok(Part::Batch),
        "circle" => Ok(Part::Circle),
        "commute" => Ok(Part::Commute),
        "trees" => Ok(Part::Trees),
        _ => Err(USAGE.to_string()),
    }
}
