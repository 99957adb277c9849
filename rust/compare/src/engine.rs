//! The programs that answer calls.

use crate::case::{Answer, Call, Case};
use lent::{lend, lend_items, lend_mut, lend_pairs, lend_results};

/// A program that answers a call and changes what is lent to it.
pub trait Engine {
    fn name(&self) -> &'static str;

    /// The answer; the columns of the case are left as the program leaves them.
    fn answer(&self, case: &mut Case) -> Answer;
}

/// Takes over the answers of a package, which have the same numbers.
macro_rules! same_numbers {
    ($($package:ident)::+) => {
        impl From<$($package)::+::Answer> for Answer {
            fn from(answer: $($package)::+::Answer) -> Answer {
                let $($package)::+::Answer { refusal, place, first, second, moved, .. } = answer;
                Answer { refusal, place, first, second, moved, ..Answer::default() }
            }
        }

        impl From<$($package)::+::Found> for Answer {
            fn from(found: $($package)::+::Found) -> Answer {
                let $($package)::+::Found { refusal, place, row, level, parent, .. } = found;
                Answer { refusal, place, row, level, parent, ..Answer::default() }
            }
        }
    };
}

/// A program whose package has the same functions over types of its own.
macro_rules! engine {
    ($(#[$words:meta])* $program:ident, $package:ident) => {
        $(#[$words])*
        pub struct $program;

        impl Engine for $program {
            fn name(&self) -> &'static str {
                stringify!($package)
            }

            fn answer(&self, case: &mut Case) -> Answer {
                use $package::Question;
                let Case { table, count, call } = case;
                let count = *count;
                match call {
                    Call::Check => $package::check(&lend!($package, table, count)).into(),
                    Call::Find { key_wanted } => {
                        $package::find(&lend!($package, table, count), *key_wanted).into()
                    }
                    Call::Step(step) => $package::step(
                        &lend!($package, table, count),
                        &lend_pairs!($package, step.lists),
                        Question { axis: step.axis, test: step.test, test_name: step.test_name },
                        &mut lend_results!($package, step.lists),
                    )
                    .into(),
                    Call::Insert(insert) => $package::insert(
                        &mut lend_mut!($package, table, count),
                        insert.parent_key,
                        &lend!($package, insert.piece, insert.piece_count),
                    )
                    .into(),
                    Call::Delete { key_wanted } => {
                        $package::delete(&mut lend_mut!($package, table, count), *key_wanted).into()
                    }
                    Call::Rename { key_wanted, new_name } => $package::rename(
                        &mut lend_mut!($package, table, count),
                        *key_wanted,
                        *new_name,
                    )
                    .into(),
                    Call::Carry(carry) => $package::carry(
                        &lend_pairs!($package, carry.lists),
                        count,
                        carry.first,
                        carry.moved,
                        &mut lend_results!($package, carry.lists),
                    )
                    .into(),
                    Call::Batch(items) => $package::batch(
                        &mut lend_mut!($package, table, count),
                        &lend_items!($package, items),
                    )
                    .into(),
                }
            }
        }

        same_numbers!($package);
    };
}

engine!(
    /// The plain Rust of the benchmark.
    Plain,
    plain
);
engine!(
    /// The independent second program, which the others are compared with.
    Second,
    second
);

mod piped;
#[cfg(feature = "library")]
mod verified;
pub use piped::Piped;
#[cfg(feature = "library")]
pub use verified::Library;
