//! One call with everything that is lent to it.

use lent::{Columns, Items};
use std::fmt;

/// The names of the five columns, in their order.
const COLUMN_NAMES: [&str; 5] = ["key", "size", "level", "kind", "name"];

/// A list of pairs, and the two columns that results are written to.
#[derive(Clone, Debug, Default, PartialEq, Eq)]
pub struct Lists {
    pub role: Vec<usize>,
    pub row: Vec<usize>,
    pub out_role: Vec<usize>,
    pub out_row: Vec<usize>,
}

/// The names of the four columns, in their order.
const LIST_NAMES: [&str; 4] = ["role", "row", "out_role", "out_row"];

impl Lists {
    fn each(&self) -> [&Vec<usize>; 4] {
        [&self.role, &self.row, &self.out_role, &self.out_row]
    }

    fn each_mut(&mut self) -> [&mut Vec<usize>; 4] {
        [&mut self.role, &mut self.row, &mut self.out_role, &mut self.out_row]
    }

    /// How many results there is room for.
    pub fn room(&self) -> usize {
        self.out_role.len().min(self.out_row.len())
    }

    /// The first so many results as a list of pairs, without room for further results.
    pub fn results(&self, length: usize) -> Lists {
        let [role, row] = [&self.out_role, &self.out_row].map(|column| column[..length].to_vec());
        Lists { role, row, ..Lists::default() }
    }

    /// Writes results that there is room for.
    pub fn write(&mut self, results: &[(usize, usize)]) {
        for (place, &(role, row)) in results.iter().enumerate() {
            self.out_role[place] = role;
            self.out_row[place] = row;
        }
    }
}

/// What a step lends beside the table, and what it asks.
#[derive(Clone, Debug, Default, PartialEq, Eq)]
pub struct Step {
    pub lists: Lists,
    pub axis: usize,
    pub test: usize,
    pub test_name: usize,
}

/// What an insertion lends beside the table.
#[derive(Clone, Debug, Default, PartialEq, Eq)]
pub struct Insert {
    pub parent_key: usize,
    pub piece: Columns,
    pub piece_count: usize,
}

/// What a carry lends and asks. It has no table, so its case has empty columns, and the count of
/// the case is the one before the edit.
#[derive(Clone, Debug, Default, PartialEq, Eq)]
pub struct Carry {
    pub lists: Lists,
    pub first: usize,
    pub moved: i64,
}

/// The names of the three columns of a batch, in their order.
const ITEM_NAMES: [&str; 3] = ["code", "key", "name"];

/// What is asked of a table, or of a list of pairs.
#[derive(Clone, Debug, PartialEq, Eq)]
pub enum Call {
    Check,
    Find { key_wanted: usize },
    Step(Step),
    Insert(Insert),
    Delete { key_wanted: usize },
    Rename { key_wanted: usize, new_name: usize },
    Carry(Carry),
    Batch(Items),
}

impl Call {
    /// The key by which the call names a row.
    pub fn named_key(&self) -> Option<usize> {
        match self {
            Call::Find { key_wanted }
            | Call::Delete { key_wanted }
            | Call::Rename { key_wanted, .. } => Some(*key_wanted),
            Call::Insert(insert) => Some(insert.parent_key),
            Call::Check | Call::Step(_) | Call::Carry(_) | Call::Batch(_) => None,
        }
    }
}

/// A call, with the table it is about.
#[derive(Clone, Debug, PartialEq, Eq)]
pub struct Case {
    pub table: Columns,
    pub count: usize,
    pub call: Call,
}

/// The numbers that calls answer with. What a call doesn't use is 0: a find has a row, a level and a
/// parent, the other calls have the three numbers before them.
#[derive(Clone, Copy, Debug, Default, PartialEq, Eq)]
pub struct Answer {
    pub refusal: usize,
    pub place: usize,
    pub first: usize,
    pub second: usize,
    pub moved: i64,
    pub row: usize,
    pub level: usize,
    pub parent: i64,
}

impl Answer {
    pub fn refused(number: usize, place: usize) -> Answer {
        Answer { refusal: number, place, ..Answer::default() }
    }

    /// Of a find: where the row of the key stands. The parent of a root is -1.
    pub fn found(row: usize, level: usize, parent: i64) -> Answer {
        Answer { row, level, parent, ..Answer::default() }
    }
}

/// The functions of the library.
#[derive(Clone, Copy, Debug, PartialEq, Eq)]
pub enum Entry {
    Check,
    Find,
    Step,
    Insert,
    Delete,
    Rename,
    Carry,
    Batch,
}

impl Entry {
    pub const ALL: [Entry; 8] = [
        Entry::Check,
        Entry::Find,
        Entry::Step,
        Entry::Insert,
        Entry::Delete,
        Entry::Rename,
        Entry::Carry,
        Entry::Batch,
    ];

    pub fn name(self) -> &'static str {
        match self {
            Entry::Check => "check",
            Entry::Find => "find",
            Entry::Step => "step",
            Entry::Insert => "insert",
            Entry::Delete => "delete",
            Entry::Rename => "rename",
            Entry::Carry => "carry",
            Entry::Batch => "batch",
        }
    }
}

impl Case {
    pub fn of_carry(old_count: usize, carry: Carry) -> Case {
        Case { table: Columns::default(), count: old_count, call: Call::Carry(carry) }
    }

    pub fn entry(&self) -> Entry {
        match self.call {
            Call::Check => Entry::Check,
            Call::Find { .. } => Entry::Find,
            Call::Step(_) => Entry::Step,
            Call::Insert(_) => Entry::Insert,
            Call::Delete { .. } => Entry::Delete,
            Call::Rename { .. } => Entry::Rename,
            Call::Carry(_) => Entry::Carry,
            Call::Batch(_) => Entry::Batch,
        }
    }

    /// The list of pairs and the result columns of a call that has them.
    pub fn lists(&self) -> Option<&Lists> {
        match &self.call {
            Call::Step(Step { lists, .. }) | Call::Carry(Carry { lists, .. }) => Some(lists),
            _ => None,
        }
    }

    /// The same, to be changed.
    pub fn lists_mut(&mut self) -> Option<&mut Lists> {
        match &mut self.call {
            Call::Step(Step { lists, .. }) | Call::Carry(Carry { lists, .. }) => Some(lists),
            _ => None,
        }
    }

    /// Every lent column, in the order of `lent`.
    pub fn lent_mut(&mut self) -> Vec<&mut Vec<usize>> {
        let mut lent: Vec<_> = self.table.each_mut().into();
        match &mut self.call {
            Call::Step(Step { lists, .. }) | Call::Carry(Carry { lists, .. }) => {
                lent.extend(lists.each_mut());
            }
            Call::Insert(insert) => lent.extend(insert.piece.each_mut()),
            Call::Batch(items) => lent.extend(items.each_mut()),
            Call::Check | Call::Find { .. } | Call::Delete { .. } | Call::Rename { .. } => {}
        }
        lent
    }

    /// Every lent column with its name.
    pub fn lent(&self) -> Vec<(String, &[usize])> {
        let mut lent = named("", COLUMN_NAMES, self.table.each());
        match &self.call {
            Call::Step(Step { lists, .. }) | Call::Carry(Carry { lists, .. }) => {
                lent.extend(named("", LIST_NAMES, lists.each()));
            }
            Call::Insert(insert) => {
                lent.extend(named("piece_", COLUMN_NAMES, insert.piece.each()));
            }
            Call::Batch(items) => lent.extend(named("item_", ITEM_NAMES, items.each())),
            Call::Check | Call::Find { .. } | Call::Delete { .. } | Call::Rename { .. } => {}
        }
        lent
    }
}

/// Columns with their names.
fn named<'a, const COLUMNS: usize>(
    prefix: &str,
    names: [&str; COLUMNS],
    columns: [&'a Vec<usize>; COLUMNS],
) -> Vec<(String, &'a [usize])> {
    let named = names.into_iter().zip(columns);
    named.map(|(name, column)| (format!("{prefix}{name}"), column.as_slice())).collect()
}

/// The input as Rust literals.
impl fmt::Display for Case {
    fn fmt(&self, out: &mut fmt::Formatter<'_>) -> fmt::Result {
        for (name, column) in self.lent() {
            writeln!(out, "let {name} = {column:?};")?;
        }
        writeln!(out, "let count = {};", self.count)?;
        match &self.call {
            Call::Check | Call::Batch(_) => {}
            Call::Find { key_wanted } | Call::Delete { key_wanted } => {
                writeln!(out, "let key_wanted = {key_wanted};")?;
            }
            Call::Step(Step { axis, test, test_name, .. }) => {
                writeln!(out, "let (axis, test, test_name) = ({axis}, {test}, {test_name});")?;
            }
            Call::Insert(Insert { parent_key, piece_count, .. }) => {
                writeln!(out, "let (parent_key, piece_count) = ({parent_key}, {piece_count});")?;
            }
            Call::Rename { key_wanted, new_name } => {
                writeln!(out, "let (key_wanted, new_name) = ({key_wanted}, {new_name});")?;
            }
            Call::Carry(Carry { first, moved, .. }) => {
                writeln!(out, "let (first, moved) = ({first}, {moved});")?;
            }
        }
        writeln!(out, "// {}", self.entry().name())
    }
}
