//! A first call: which setpoints of a small farm do two roles reach?

use reach::codes::{KIND_COMMENT as C, KIND_ELEMENT as E};
use reach::{Axis, Pairs, Refusal, Results, Table, Test};

fn main() -> Result<(), Refusal> {
    // A farm (name 1) of two turbines (2) with blades (3) that each have a setpoint (4), and a comment.
    let farm = Table {
        key: &[10, 20, 21, 22, 23, 24, 30, 31, 32, 40],
        size: &[9, 4, 1, 0, 1, 0, 2, 1, 0, 0],
        level: &[0, 1, 2, 3, 2, 3, 1, 2, 3, 1],
        kind: &[E, E, E, E, E, E, E, E, E, C],
        name: &[1, 2, 3, 4, 3, 4, 2, 3, 4, 0],
        count: 10,
    };
    // Role 5 holds the first turbine and one of its blades, role 7 the second turbine.
    let pairs = Pairs { role: &[5, 5, 7], row: &[1, 2, 6] };
    let (mut role, mut row) = ([0; 10], [0; 10]);
    let results = Results { role: &mut role, row: &mut row };

    // Which setpoints stand below what they hold?
    let stepped = farm.step(pairs, Axis::Descendant, Test::Element(4), results)?;
    println!("role row key");
    for (role, row) in role.into_iter().zip(row).take(stepped.results) {
        println!("{role} {row} {}", farm.key[row]);
    }
    println!("pairs {} kept {}", stepped.results, stepped.kept);
    Ok(())
}
