//! Trees of linked nodes: a step reads them, an edit changes them as XQuery Update describes it.

use crate::table::Rows;

/// A node with its parent and its children in their order, which are named by their places in
/// the list of all nodes.
pub(crate) struct Node {
    pub key: usize,
    pub kind: usize,
    pub name: usize,
    pub parent: Option<usize>,
    pub children: Vec<usize>,
}

/// Linked nodes. A node that an edit adds comes after those that were there, so the nodes of
/// the table it was made from stay at the places of their rows.
pub(crate) struct Forest {
    pub nodes: Vec<Node>,
    /// The nodes without a parent, one for each tree, in their order.
    pub roots: Vec<usize>,
}

/// A node as a row of a table again, and where it stood in the list of all nodes.
pub(crate) struct Line {
    pub node: usize,
    pub key: usize,
    pub size: usize,
    pub level: usize,
    pub kind: usize,
    pub name: usize,
}

/// The parent of a row of a sound table: of all earlier rows whose level is one less, the nearest.
/// Each earlier row is looked at, from row 0 on. A root has none.
pub(crate) fn parent_row(rows: &Rows<'_>, row: usize) -> Option<usize> {
    let one_less = rows.level[row].checked_sub(1)?;
    let earlier = rows.level[..row].iter().enumerate();
    earlier.filter(|(_, &level)| level == one_less).map(|(row, _)| row).max()
}

impl Forest {
    /// Links the rows of a sound table.
    pub fn of(rows: &Rows<'_>) -> Forest {
        let node = |row: usize| Node {
            key: rows.key[row],
            kind: rows.kind[row],
            name: rows.name[row],
            parent: parent_row(rows, row),
            children: Vec::new(),
        };
        let mut nodes: Vec<Node> = rows.numbers().map(node).collect();
        let mut roots = Vec::new();
        for row in rows.numbers() {
            match nodes[row].parent {
                Some(parent) => nodes[parent].children.push(row),
                None => roots.push(row),
            }
        }
        Forest { nodes, roots }
    }

    /// For each node, whether it is one of the given.
    pub fn marks(&self, given: impl Iterator<Item = usize>) -> Vec<bool> {
        let mut marks = vec![false; self.nodes.len()];
        given.for_each(|node| marks[node] = true);
        marks
    }

    /// "insert node PIECE as last into TARGET": the piece's root becomes the last child.
    pub fn insert_as_last(&mut self, target: usize, piece: Forest) {
        let start = self.nodes.len();
        for mut node in piece.nodes {
            node.parent = Some(node.parent.map_or(target, |parent| start + parent));
            node.children.iter_mut().for_each(|child| *child += start);
            self.nodes.push(node);
        }
        self.nodes[target].children.extend(piece.roots.iter().map(|root| start + root));
    }

    /// "delete node TARGET": it is parted from its parent, or leaves the list of roots, and what is
    /// below it goes with it.
    pub fn delete(&mut self, target: usize) {
        let beside = match self.nodes[target].parent {
            Some(parent) => &mut self.nodes[parent].children,
            None => &mut self.roots,
        };
        beside.retain(|&node| node != target);
    }

    /// "rename node TARGET as NAME".
    pub fn rename(&mut self, target: usize, name: usize) {
        self.nodes[target].name = name;
    }

    /// The nodes that can be reached from a root, in document order.
    pub fn lines(&self) -> Vec<Line> {
        self.in_document_order().into_iter().map(|node| self.line(node)).collect()
    }

    fn line(&self, node: usize) -> Line {
        let size = self.descendants(node).len();
        let level = self.ancestors(node).count();
        let Node { key, kind, name, .. } = self.nodes[node];
        Line { node, key, size, level, kind, name }
    }
}
