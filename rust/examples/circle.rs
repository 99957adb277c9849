//! The whole circle: grants are kept while the farm is edited, and each step takes them as they are.

use reach::codes::{KIND_COMMENT as C, KIND_ELEMENT as E};
use reach::{Axis, Pairs, Refusal, Results, Table, TableMut, Test};

fn main() -> Result<(), Refusal> {
    // The farm of the first call, with a spare row.
    let mut farm = TableMut {
        key: &mut [10, 20, 21, 22, 23, 24, 30, 31, 32, 40, 0],
        size: &mut [9, 4, 1, 0, 1, 0, 2, 1, 0, 0, 0],
        level: &mut [0, 1, 2, 3, 2, 3, 1, 2, 3, 1, 0],
        kind: &mut [E, E, E, E, E, E, E, E, E, C, 0],
        name: &mut [1, 2, 3, 4, 3, 4, 2, 3, 4, 0, 0],
        count: 10,
    };
    // Role 5 holds the first turbine and one of its blades, role 7 the second turbine.
    let grants = Pairs { role: &[5, 5, 7], row: &[1, 2, 6] };
    show("at first", farm.as_table(), grants)?;

    // The blade with the key 21 goes, and the grant on it. The second turbine moves up by two rows.
    let deleted = farm.delete(21)?;
    let (mut role, mut row) = ([0; 3], [0; 3]);
    let length = grants.carry(&deleted, Results { role: &mut role, row: &mut row })?;
    let grants = Pairs { role: &role[..length], row: &row[..length] };
    show("key 21 deleted", farm.as_table(), grants)?;

    // The blade with the key 23 gets a second setpoint. The second turbine moves down by one row.
    let setpoint = Table { key: &[50], size: &[0], level: &[0], kind: &[E], name: &[4], count: 1 };
    let inserted = farm.insert(23, setpoint)?;
    let (mut role, mut row) = ([0; 3], [0; 3]);
    let length = grants.carry(&inserted, Results { role: &mut role, row: &mut row })?;
    let grants = Pairs { role: &role[..length], row: &row[..length] };
    show("key 50 inserted", farm.as_table(), grants)
}

/// Prints what the roles hold, and by a step which setpoints they reach.
fn show(when: &str, farm: Table<'_>, grants: Pairs<'_>) -> Result<(), Refusal> {
    let (mut role, mut row) = ([0; 10], [0; 10]);
    let results = Results { role: &mut role, row: &mut row };
    let stepped = farm.step(grants, Axis::Descendant, Test::Element(4), results)?;
    println!("{when}");
    for (role, &row) in grants.role.iter().zip(grants.row) {
        println!("  {role} holds key {} in row {row}", farm.key[row]);
    }
    for (role, row) in role.into_iter().zip(row).take(stepped.results) {
        println!("  {role} reaches key {} in row {row}", farm.key[row]);
    }
    Ok(())
}
