//! Two farms in one table: no step leaves a farm, and a farm goes with its root.

use reach::codes::KIND_ELEMENT;
use reach::{Axis, Pairs, Refusal, Results, Table, TableMut, Test};

fn main() -> Result<(), Refusal> {
    // A farm (name 1) of two turbines (2) with a setpoint (4) each, and another one behind it.
    let mut farms = TableMut {
        key: &mut [10, 20, 22, 30, 32, 50, 60, 62, 70, 72],
        size: &mut [4, 1, 0, 1, 0, 4, 1, 0, 1, 0],
        level: &mut [0, 1, 2, 1, 2, 0, 1, 2, 1, 2],
        kind: &mut [KIND_ELEMENT; 10],
        name: &mut [1, 2, 4, 2, 4, 1, 2, 4, 2, 4],
        count: 10,
    };
    // Role 5 holds both turbines of the first farm and a turbine of the second, role 7 that one too.
    let grants = Pairs { role: &[5, 5, 5, 7], row: &[1, 3, 6, 6] };
    show("two farms", farms.as_table(), grants)?;

    // The first farm goes, and the grants on it. The second one moves up by five rows.
    let deleted = farms.delete(10)?;
    let (mut role, mut row) = ([0; 4], [0; 4]);
    let length = grants.carry(&deleted, Results { role: &mut role, row: &mut row })?;
    let grants = Pairs { role: &role[..length], row: &row[..length] };
    show("key 10 deleted", farms.as_table(), grants)
}

/// Prints what the roles hold, and by a step which turbines come after it in the same farm.
fn show(when: &str, farms: Table<'_>, grants: Pairs<'_>) -> Result<(), Refusal> {
    let (mut role, mut row) = ([0; 10], [0; 10]);
    let results = Results { role: &mut role, row: &mut row };
    let stepped = farms.step(grants, Axis::Following, Test::Element(2), results)?;
    println!("{when}");
    for (role, &row) in grants.role.iter().zip(grants.row) {
        println!("  {role} holds key {} in row {row}", farms.key[row]);
    }
    for (role, row) in role.into_iter().zip(row).take(stepped.results) {
        println!("  {role} reaches key {} in row {row}", farms.key[row]);
    }
    println!("  pairs {} kept {}", stepped.results, stepped.kept);
    Ok(())
}
