//! Lends columns to a package. The packages of the programs have types of their own with the same
//! fields, so a macro names the package.

/// The columns as a package's `Table`: with this count, or with all rows in use.
#[macro_export]
macro_rules! lend {
    ($package:ident, $columns:expr) => {
        $crate::lend!($package, $columns, $columns.key.len())
    };
    ($package:ident, $columns:expr, $count:expr) => {
        $package::Table {
            count: $count,
            key: &$columns.key,
            size: &$columns.size,
            level: &$columns.level,
            kind: &$columns.kind,
            name: &$columns.name,
        }
    };
}

/// The same as its `TableMut`, to be changed.
#[macro_export]
macro_rules! lend_mut {
    ($package:ident, $columns:expr) => {
        $crate::lend_mut!($package, $columns, $columns.key.len())
    };
    ($package:ident, $columns:expr, $count:expr) => {
        $package::TableMut {
            // First, since it may be the length of a column that is lent below.
            count: $count,
            key: &mut $columns.key,
            size: &mut $columns.size,
            level: &mut $columns.level,
            kind: &mut $columns.kind,
            name: &mut $columns.name,
        }
    };
}

/// What has a `code`, a `key` and a `name` column as a package's `Items`.
#[macro_export]
macro_rules! lend_items {
    ($package:ident, $items:expr) => {
        $package::Items { code: &$items.code, key: &$items.key, name: &$items.name }
    };
}

/// What has a `role` and a `row` column as a package's `Pairs`.
#[macro_export]
macro_rules! lend_pairs {
    ($package:ident, $lists:expr) => {
        $package::Pairs { role: &$lists.role, row: &$lists.row }
    };
}

/// What has an `out_role` and an `out_row` column as a package's `Results`.
#[macro_export]
macro_rules! lend_results {
    ($package:ident, $lists:expr) => {
        $package::Results { role: &mut $lists.out_role, row: &mut $lists.out_row }
    };
}
