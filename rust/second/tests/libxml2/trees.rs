//! Random trees that XML can express, and the table of several of them.

use crate::random::Random;
use second::Table;

/// How many names there are: 1 and so on.
pub const NAMES: usize = 4;

/// A node, its row in the table, and what is below it.
pub struct Node {
    pub row: usize,
    pub kind: usize,
    pub name: usize,
    pub children: Vec<Node>,
}

impl Node {
    /// A tree of up to 40 nodes: a document, an element, or now and then a single node of another
    /// kind. Its rows are not numbered yet.
    pub fn random_tree(random: &mut Random) -> Node {
        let kind = random.pick(&[0, 0, 0, 0, 1, 1, 1, 2, 3, 4]);
        let mut root = Node::new(random, kind);
        if kind == 0 {
            root.children.push(Node::new(random, 1));
        }
        if kind <= 1 {
            (0..random.within(4, 38)).for_each(|_| root.grow(random));
        }
        root
    }

    fn new(random: &mut Random, kind: usize) -> Node {
        let name = if kind == 1 || kind == 4 { random.within(1, NAMES) } else { 0 };
        Node { row: 0, kind, name, children: Vec::new() }
    }

    /// Puts a node somewhere below this document or element. A document keeps its one element and
    /// gets no text; two texts are never neighbours, since XML would take them for one.
    fn grow(&mut self, random: &mut Random) {
        let mut elements: Vec<&mut Node> =
            self.children.iter_mut().filter(|child| child.kind == 1).collect();
        if !elements.is_empty() && random.below(3) > 0 {
            let chosen = random.below(elements.len());
            return elements[chosen].grow(random);
        }
        let kind = random.pick(if self.kind == 0 { &[3, 4] } else { &[1, 1, 1, 2, 3, 4] });
        let place = random.below(self.children.len() + 1);
        let beside = &self.children[place.saturating_sub(1)..self.children.len().min(place + 1)];
        if kind != 2 || beside.iter().all(|sibling| sibling.kind != 2) {
            self.children.insert(place, Node::new(random, kind));
        }
    }

    /// The row after the last one in the tree.
    pub fn end(&self) -> usize {
        self.children.last().map_or(self.row + 1, Node::end)
    }
}

/// A table of trees.
#[derive(Default)]
pub struct Columns {
    key: Vec<usize>,
    size: Vec<usize>,
    level: Vec<usize>,
    pub kind: Vec<usize>,
    name: Vec<usize>,
}

impl Columns {
    /// The table of the trees, whose rows get their numbers.
    pub fn of(trees: &mut [Node]) -> Columns {
        let mut columns = Columns::default();
        trees.iter_mut().for_each(|root| columns.add(root, 0));
        columns
    }

    fn add(&mut self, node: &mut Node, level: usize) {
        node.row = self.count();
        self.key.push(node.row + 1);
        self.size.push(0);
        self.level.push(level);
        self.kind.push(node.kind);
        self.name.push(node.name);
        node.children.iter_mut().for_each(|child| self.add(child, level + 1));
        self.size[node.row] = self.count() - node.row - 1;
    }

    pub fn count(&self) -> usize {
        self.key.len()
    }

    pub fn table(&self) -> Table<'_> {
        Table {
            key: &self.key,
            size: &self.size,
            level: &self.level,
            kind: &self.kind,
            name: &self.name,
            count: self.count(),
        }
    }
}
