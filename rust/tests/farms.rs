//! Two farms in one table through the safe wrapper.

use reach::{Axis, Edited, Pairs, Refusal, Results, Stepped, Table, TableMut, Test};

/// Two farms with two turbines each, and the first turbine of the first has a setpoint. The second
/// farm is a document.
#[derive(PartialEq, Debug)]
struct Farms {
    columns: [[usize; 8]; 5],
}

impl Farms {
    fn new() -> Farms {
        let key = [10, 20, 22, 30, 50, 60, 70, 0];
        let size = [3, 1, 0, 0, 2, 0, 0, 0];
        let level = [0, 1, 2, 1, 0, 1, 1, 0];
        let kind = [1, 1, 1, 1, 0, 1, 1, 0];
        let name = [1, 2, 4, 2, 0, 2, 2, 0];
        Farms { columns: [key, size, level, kind, name] }
    }

    fn lent(&mut self) -> TableMut<'_> {
        let [key, size, level, kind, name] = &mut self.columns;
        TableMut { key, size, level, kind, name, count: 7 }
    }
}

/// Role 5 holds a turbine and its setpoint in the first farm and a turbine in the second, role 7
/// both turbines of the second and its root.
const GRANTS: Pairs<'static> = Pairs { role: &[5, 5, 5, 7, 7, 7], row: &[1, 2, 5, 4, 5, 6] };

/// The results and the kept count.
fn step(axis: Axis, grants: Pairs<'_>) -> (Vec<(usize, usize)>, usize) {
    let (mut farms, mut role, mut row) = (Farms::new(), [0; 16], [0; 16]);
    let results = Results { role: &mut role, row: &mut row };
    let stepped = farms.lent().as_table().step(grants, axis, Test::AnyNode, results);
    let Stepped { results, kept, .. } = stepped.unwrap();
    (role.into_iter().zip(row).take(results).collect(), kept)
}

#[test]
fn no_axis_leaves_a_farm_and_each_farm_keeps_one_pair() {
    assert_eq!(step(Axis::Following, GRANTS), (vec![(5, 3), (5, 6), (7, 6)], 3));
    let roots = Pairs { role: &[5, 5], row: &[0, 4] };
    assert_eq!(step(Axis::Following, roots), (vec![], 2));
    let preceding = step(Axis::Preceding, Pairs { role: &[5, 5, 7], row: &[3, 6, 6] });
    assert_eq!(preceding, (vec![(5, 1), (5, 2), (5, 5), (7, 5)], 3));
    assert_eq!(step(Axis::Preceding, roots), (vec![], 2));
}

#[test]
fn both_roots_are_found_and_no_parent_stands_in_the_other_farm() {
    let mut farms = Farms::new();
    let farms = farms.lent();
    for (key, row, level, parent) in
        [(10, 0, 0, None), (30, 3, 1, Some(0)), (50, 4, 0, None), (60, 5, 1, Some(4))]
    {
        let found = farms.as_table().find(key).unwrap();
        assert_eq!((found.row, found.level, found.parent), (row, level, parent));
    }
}

#[test]
fn roots_are_nobodys_children_or_siblings() {
    let roots = Pairs { role: &[5, 5], row: &[0, 4] };
    for axis in [Axis::Parent, Axis::Ancestor, Axis::FollowingSibling, Axis::PrecedingSibling] {
        assert_eq!(step(axis, roots), (vec![], 2));
    }
    let ancestors = step(Axis::Ancestor, GRANTS);
    assert_eq!(ancestors, (vec![(5, 0), (5, 1), (5, 4), (7, 4)], 4));
}

#[test]
fn a_farm_goes_with_its_root_and_grants_are_carried() {
    let (mut farms, mut role, mut row) = (Farms::new(), [0; 6], [0; 6]);
    let mut table = farms.lent();
    let deleted = table.delete(10).unwrap();
    assert_eq!(deleted, Edited::new(3, 4, -4));
    let results = Results { role: &mut role, row: &mut row };
    assert_eq!(GRANTS.carry(&deleted, results), Ok(4));
    assert_eq!((role[..4].to_vec(), row[..4].to_vec()), (vec![5, 7, 7, 7], vec![1, 0, 1, 2]));
    assert_eq!(table.key, [50, 60, 70, 0, 0, 0, 0, 0]);
    assert_eq!(table.as_table().check(), Ok(()));

    // The other farm is now the only one.
    assert_eq!(table.delete(50), Err(Refusal::DeletesRoot));
}

#[test]
fn the_last_farm_of_two_goes_too() {
    let mut farms = Farms::new();
    let mut table = farms.lent();
    assert_eq!(table.delete(50), Ok(Edited::new(4, 7, -3)));
    assert_eq!(table.delete(10), Err(Refusal::DeletesRoot));
}

#[test]
fn a_piece_is_one_tree() {
    let mut farms = Farms::new();
    let two = Table {
        key: &[80, 81],
        size: &[0, 0],
        level: &[0, 0],
        kind: &[1, 1],
        name: &[4, 4],
        count: 2,
    };
    assert_eq!(two.check(), Ok(()));
    assert_eq!(farms.lent().insert(60, two), Err(Refusal::BadPiece));
    assert_eq!(farms, Farms::new());
    // Its first row alone is a piece, and goes into the farm of its parent.
    let one = Table { count: 1, ..two };
    let inserted = farms.lent().insert(20, one);
    assert_eq!(inserted, Ok(Edited::new(8, 3, 1)));
    assert_eq!(farms.columns[0], [10, 20, 22, 80, 30, 50, 60, 70]);
    assert_eq!(farms.columns[1], [4, 2, 0, 0, 0, 2, 0, 0]);
}

#[test]
fn only_a_root_is_a_document() {
    let mut farms = Farms::new();
    assert_eq!(farms.lent().as_table().check(), Ok(()));
    farms.columns[3][5] = 0;
    farms.columns[4][5] = 0;
    assert_eq!(farms.lent().as_table().check(), Err(Refusal::UnsoundRow { row: 5 }));
}
