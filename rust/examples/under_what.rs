//! Where is it, and under what? A setpoint is found by its key, and then all that it stands under.

use reach::{farm, Refusal};

fn main() -> Result<(), Refusal> {
    // The table of the first call.
    let farm = farm::table();
    let mut key = 24;
    loop {
        let found = farm.find(key)?;
        print!("key {key} in row {}, level {}, ", found.row, found.level);
        match found.parent {
            Some(parent) => {
                println!("under key {} in row {parent}", farm.key[parent]);
                key = farm.key[parent];
            }
            None => {
                println!("a root");
                return Ok(());
            }
        }
    }
}
