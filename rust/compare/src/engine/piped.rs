//! A program behind a pipe, such as the library compiled for another processor and emulated:
//! `tools/piped.c`. All goes over the pipe as numbers of eight bytes. A call: its code, the count,
//! three arguments, the number of columns, their lengths, their contents. Back come the five
//! numbers of the answer and the contents of all columns.

use super::Engine;
use crate::case::{Answer, Call, Case};
use std::cell::RefCell;
use std::io::{self, BufReader, BufWriter, Read, Write};
use std::process::{ChildStdin, ChildStdout, Command, Stdio};

pub struct Piped {
    pipe: RefCell<Pipe>,
}

struct Pipe {
    to: BufWriter<ChildStdin>,
    from: BufReader<ChildStdout>,
}

impl Piped {
    /// Starts a program by its words.
    pub fn start(command: &str) -> Result<Piped, String> {
        let mut words = command.split_whitespace();
        let program = words.next().ok_or("no program to start")?;
        let child = Command::new(program)
            .args(words)
            .stdin(Stdio::piped())
            .stdout(Stdio::piped())
            .spawn()
            .map_err(|error| format!("{program}: {error}"))?;
        let (Some(to), Some(from)) = (child.stdin, child.stdout) else {
            return Err(format!("{program} has no pipe"));
        };
        let pipe = Pipe { to: BufWriter::new(to), from: BufReader::new(from) };
        Ok(Piped { pipe: RefCell::new(pipe) })
    }
}

impl Engine for Piped {
    fn name(&self) -> &'static str {
        "the program behind the pipe"
    }

    fn answer(&self, case: &mut Case) -> Answer {
        let mut pipe = self.pipe.borrow_mut();
        pipe.send(case).and_then(|()| pipe.receive(case)).expect("the pipe stays open")
    }
}

impl Pipe {
    fn send(&mut self, case: &Case) -> io::Result<()> {
        let [a, b, c] = arguments(&case.call);
        let columns = case.lent();
        self.put(&[case.entry() as usize, case.count, a, b, c, columns.len()])?;
        for (_, column) in &columns {
            self.put(&[column.len()])?;
        }
        for (_, column) in &columns {
            self.put(column)?;
        }
        self.to.flush()
    }

    fn receive(&mut self, case: &mut Case) -> io::Result<Answer> {
        let mut numbers = [0; 5];
        self.get(&mut numbers)?;
        for column in case.lent_mut() {
            self.get(column)?;
        }
        let [refusal, place, first, second, signed] = numbers;
        let (refused, signed) = (Answer::refused(refusal, place), signed as i64);
        Ok(match case.call {
            Call::Find { .. } => Answer { row: first, level: second, parent: signed, ..refused },
            _ => Answer { first, second, moved: signed, ..refused },
        })
    }

    fn put(&mut self, numbers: &[usize]) -> io::Result<()> {
        numbers.iter().try_for_each(|&number| self.to.write_all(&(number as u64).to_le_bytes()))
    }

    fn get(&mut self, numbers: &mut [usize]) -> io::Result<()> {
        for number in numbers {
            let mut bytes = [0; 8];
            self.from.read_exact(&mut bytes)?;
            *number = u64::from_le_bytes(bytes) as usize;
        }
        Ok(())
    }
}

/// What a call passes beside columns and the count; a signed number as its bits.
fn arguments(call: &Call) -> [usize; 3] {
    match call {
        Call::Check | Call::Batch(_) => [0, 0, 0],
        Call::Find { key_wanted } | Call::Delete { key_wanted } => [*key_wanted, 0, 0],
        Call::Step(step) => [step.axis, step.test, step.test_name],
        Call::Insert(insert) => [insert.parent_key, insert.piece_count, 0],
        Call::Rename { key_wanted, new_name } => [*key_wanted, *new_name, 0],
        Call::Carry(carry) => [carry.first, carry.moved as usize, 0],
    }
}
