//! Compares an engine, call by call, with the independent second program: the stated cases of
//! the small farm first, then random calls, on two threads. The first difference in an answer, or
//! in any place of any lent column, ends the run with status 1.

#![forbid(unsafe_code)]
#![allow(missing_docs)]

mod batches;
mod carries;
mod case;
mod checks;
mod circles;
mod commute;
mod damage;
mod edits;
mod engine;
mod farm;
mod items;
mod judge;
mod kept;
mod keys;
mod lists;
mod notes;
mod one_by_one;
mod options;
mod parts;
mod progress;
mod random;
mod series;
mod steps;
mod tables;
mod tally;
mod trees;

use engine::Engine;
use options::Options;
use parts::Start;
use std::process::ExitCode;
use std::time::Instant;
use tally::Tally;

fn main() -> ExitCode {
    let outcome = Options::read(std::env::args().skip(1))
        .and_then(|options| compare(&|| engine_named(&options.engine), &options));
    match outcome {
        Ok(()) => ExitCode::SUCCESS,
        Err(told) => {
            eprintln!("{told}");
            ExitCode::FAILURE
        }
    }
}

fn engine_named(name: &str) -> Result<Box<dyn Engine>, String> {
    if let Some(command) = name.strip_prefix("piped:") {
        return Ok(Box::new(engine::Piped::start(command)?));
    }
    match name {
        #[cfg(feature = "library")]
        "library" => Ok(Box::new(engine::Library)),
        "plain" => Ok(Box::new(engine::Plain)),
        _ => Err(format!("there is no engine '{name}' here")),
    }
}

fn compare(start: Start<'_>, options: &Options) -> Result<(), String> {
    let started = Instant::now();
    let stated = pose_stated_cases(start()?.as_ref(), options)?;
    let all = parts::run_random(start, options, stated)?;
    all.print();
    let seconds = started.elapsed().as_secs_f64();
    println!("no difference in {} calls, {seconds:.1} s", all.calls());
    Ok(())
}

fn pose_stated_cases(engine: &dyn Engine, options: &Options) -> Result<Tally, String> {
    println!("{} against the second program, seed {}", engine.name(), options.seed);
    let stated = parts::run_stated(engine)?;
    println!("the stated cases hold ({} calls)", stated.calls());
    Ok(stated)
}

#[cfg(test)]
mod tests {
    use super::case::{Answer, Call, Case};
    use super::engine::{Engine, Plain};
    use super::{compare, Options};

    fn options(words: &str) -> Options {
        Options::read(words.split(' ').map(String::from)).unwrap()
    }

    /// Plain Rust can be compared without the library: the generators and the judge at work.
    #[test]
    fn plain_rust_agrees_with_the_second_program() {
        compare(&|| Ok(Box::new(Plain)), &options("--seed 5 --calls 4000")).unwrap();
    }

    /// Plain Rust, but for a name that no stated case has.
    struct Wrong;

    impl Engine for Wrong {
        fn name(&self) -> &'static str {
            "wrong"
        }

        fn answer(&self, case: &mut Case) -> Answer {
            match case.call {
                Call::Rename { new_name: usize::MAX, .. } => Answer::refused(99, 0),
                _ => Plain.answer(case),
            }
        }
    }

    /// All these calls would take hours, so the parts without a difference end with the one that
    /// has it.
    #[test]
    fn the_first_difference_ends_the_run() {
        let told = compare(&|| Ok(Box::new(Wrong)), &options("--calls 1000000000")).unwrap_err();
        assert!(told.starts_with("wrong differs: it answers Answer { refusal: 99,"), "{told}");
        assert!(told.contains("new_name) = ("), "{told}");
        assert!(told.ends_with("// rename\n"), "{told}");
    }
}
