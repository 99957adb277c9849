//! What a call needs of the stack: 128 KB are enough for each, on the largest table.

use reach::{Axis, Edited, Items, Pairs, Results, Table, TableMut, Test};
use std::thread;

const ROWS: usize = 4_096;
const STACK: usize = 128 * 1_024;

/// A root with so many children less one, in columns of the greatest length.
struct Flat {
    columns: [Vec<usize>; 5],
    count: usize,
}

impl Flat {
    fn new(count: usize, first_key: usize) -> Flat {
        let column = |of: &dyn Fn(usize) -> usize| (0..ROWS).map(of).collect();
        let key = column(&|row| first_key + row);
        let size = column(&|row| if row == 0 { count - 1 } else { 0 });
        let level = column(&|row| usize::from(row > 0));
        let columns = [key, size, level, vec![1; ROWS], vec![1; ROWS]];
        Flat { columns, count }
    }

    fn table(&self) -> Table<'_> {
        let [key, size, level, kind, name] = &self.columns;
        Table { key, size, level, kind, name, count: self.count }
    }

    fn table_mut(&mut self) -> TableMut<'_> {
        let [key, size, level, kind, name] = &mut self.columns;
        TableMut { key, size, level, kind, name, count: self.count }
    }
}

fn on_a_small_stack(call: impl FnOnce() + Send + 'static) {
    thread::Builder::new().stack_size(STACK).spawn(call).unwrap().join().unwrap();
}

fn a_role_for_each_row() -> (Vec<usize>, Vec<usize>) {
    (0..ROWS).map(|row| (row, row)).unzip()
}

#[test]
fn check_and_find_fit() {
    let flat = Flat::new(ROWS, 1);
    on_a_small_stack(move || {
        assert_eq!(flat.table().check(), Ok(()));
        let last = flat.table().find(ROWS).unwrap();
        assert_eq!((last.row, last.parent), (ROWS - 1, Some(0)));
    });
}

#[test]
fn a_step_fits_counted_and_written() {
    let flat = Flat::new(ROWS, 1);
    let (role, row) = a_role_for_each_row();
    let (mut out_role, mut out_row) = (vec![0; ROWS], vec![0; ROWS]);
    on_a_small_stack(move || {
        for &axis in Axis::ALL {
            let pairs = Pairs { role: &role, row: &row };
            let results = Results { role: &mut out_role, row: &mut out_row };
            // Where the results don't fit they are counted, which needs as much.
            let _ = flat.table().step(pairs, axis, Test::AnyNode, results);
        }
    });
}

#[test]
fn edits_fit() {
    let mut flat = Flat::new(ROWS - 600, 1);
    let piece = Flat::new(600, 10_000);
    on_a_small_stack(move || {
        assert!(flat.table_mut().insert(1, piece.table()).is_ok());
        flat.count = ROWS;
        assert!(flat.table_mut().rename(2, 7).is_ok());
        assert!(flat.table_mut().delete(10_000).is_ok());
    });
}

#[test]
fn a_batch_fits() {
    let mut flat = Flat::new(ROWS, 1);
    on_a_small_stack(move || {
        let code: Vec<usize> = (0..256).map(|place| 1 + place % 2).collect();
        let key: Vec<usize> = (2..258).collect();
        let items = Items { code: &code, key: &key, name: &[7; 256] };
        assert_eq!(flat.table_mut().batch(items).all_done(), Ok(256));
    });
}

#[test]
fn a_carry_fits() {
    let (role, row) = a_role_for_each_row();
    let (mut out_role, mut out_row) = (vec![0; ROWS], vec![0; ROWS]);
    let deleted = Edited::new(ROWS - 1_000, 1_001, -1_000);
    let renamed = Edited::new(ROWS, ROWS, 0);
    on_a_small_stack(move || {
        for edited in [deleted, renamed] {
            let results = Results { role: &mut out_role, row: &mut out_row };
            let carried = Pairs { role: &role, row: &row }.carry(&edited, results);
            assert_eq!(carried, Ok(edited.count));
        }
    });
}
