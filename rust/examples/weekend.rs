//! A weekend's changes in one call: what stands behind a refused one is sent again.

use reach::codes::{ITEM_DELETE, ITEM_RENAME, KIND_COMMENT as C, KIND_ELEMENT as E};
use reach::codes::{REFUSED_BAD_COUNT, REFUSED_BAD_LIST, REFUSED_UNSOUND_ROW};
use reach::{Items, Refusal, TableMut};

fn main() -> Result<(), Refusal> {
    // The farm of the first call.
    let mut farm = TableMut {
        key: &mut [10, 20, 21, 22, 23, 24, 30, 31, 32, 40],
        size: &mut [9, 4, 1, 0, 1, 0, 2, 1, 0, 0],
        level: &mut [0, 1, 2, 3, 2, 3, 1, 2, 3, 1],
        kind: &mut [E, E, E, E, E, E, E, E, E, C],
        name: &mut [1, 2, 3, 4, 3, 4, 2, 3, 4, 0],
        count: 10,
    };
    // Friday's list. The third change comes too late: the setpoint 22 goes with its blade 21.
    let friday = Items {
        code: &[ITEM_DELETE, ITEM_RENAME, ITEM_RENAME, ITEM_DELETE, ITEM_RENAME],
        key: &[21, 30, 22, 40, 24],
        name: &[0, 5, 6, 0, 6],
    };
    let batched = farm.batch(friday);
    println!("sent 5, done {}, count {}", batched.done, batched.count);
    if let Some(refusal) = batched.refusal {
        // On refusals 1, 2 and 18 nothing was done: the table or the list is to be mended first.
        let number = refusal.number();
        if let REFUSED_BAD_COUNT | REFUSED_UNSOUND_ROW | REFUSED_BAD_LIST = number {
            return Err(refusal);
        }
        let key = friday.key[batched.done];
        println!("the change of key {key} got refusal {number}");

        // It is struck out, and what stands behind it was not tried.
        let next = batched.done + 1;
        let rest = Items {
            code: &friday.code[next..],
            key: &friday.key[next..],
            name: &friday.name[next..],
        };
        let done = farm.batch(rest).all_done()?;
        println!("sent {}, done {done}, count {}", rest.key.len(), farm.count);
    }
    for (key, name) in farm.key.iter().zip(&*farm.name).take(farm.count) {
        println!("  key {key} has name {name}");
    }
    Ok(())
}
