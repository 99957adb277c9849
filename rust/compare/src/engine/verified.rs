//! The verified library through its safe wrapper, with bare numbers.

use super::Engine;
use crate::case::{Answer, Call, Case};
use lent::{lend, lend_items, lend_mut, lend_pairs, lend_results};
use reach::boundary;

pub struct Library;

impl Engine for Library {
    fn name(&self) -> &'static str {
        "library"
    }

    fn answer(&self, case: &mut Case) -> Answer {
        let Case { table, count, call } = case;
        let count = *count;
        match call {
            Call::Check => boundary::check(lend!(reach, table, count)).into(),
            Call::Find { key_wanted } => {
                boundary::find(lend!(reach, table, count), *key_wanted).into()
            }
            Call::Step(step) => boundary::step(
                lend!(reach, table, count),
                lend_pairs!(reach, step.lists),
                step.axis,
                step.test,
                step.test_name,
                lend_results!(reach, step.lists),
            )
            .into(),
            Call::Insert(insert) => boundary::insert(
                &mut lend_mut!(reach, table, count),
                insert.parent_key,
                lend!(reach, insert.piece, insert.piece_count),
            )
            .into(),
            Call::Delete { key_wanted } => {
                boundary::delete(&mut lend_mut!(reach, table, count), *key_wanted).into()
            }
            Call::Rename { key_wanted, new_name } => {
                boundary::rename(&mut lend_mut!(reach, table, count), *key_wanted, *new_name).into()
            }
            Call::Carry(carry) => boundary::carry(
                lend_pairs!(reach, carry.lists),
                count,
                carry.first,
                carry.moved,
                lend_results!(reach, carry.lists),
            )
            .into(),
            Call::Batch(items) => {
                boundary::batch(&mut lend_mut!(reach, table, count), lend_items!(reach, items))
                    .into()
            }
        }
    }
}

same_numbers!(reach::boundary);
