//! The axes, read from the links of the nodes as XPath's data model tells it: every node has a
//! parent, but for the root, and a list of children.
//!
//! A root is in nobody's list of children. That is why it has no siblings, and why no axis leaves
//! the tree of its context.

use crate::forest::Forest;
use std::iter::successors;

impl Forest {
    /// The nodes on the axis of a context, each once, in whatever order they are met.
    pub fn on_axis(&self, axis: usize, context: usize) -> Vec<usize> {
        match axis {
            1 => vec![context],
            2 => self.children(context).to_vec(),
            3 => self.descendants(context),
            4 => self.with_all_below(&[context]),
            5 => self.parent(context).into_iter().collect(),
            6 => self.ancestors(context).collect(),
            7 => self.with_ancestors(context).collect(),
            8 => self.following(context),
            9 => self.preceding(context),
            10 => self.later_siblings(context).to_vec(),
            11 => self.earlier_siblings(context).to_vec(),
            _ => unreachable!("other axes are refused"),
        }
    }

    fn parent(&self, node: usize) -> Option<usize> {
        self.nodes[node].parent
    }

    fn children(&self, node: usize) -> &[usize] {
        &self.nodes[node].children
    }

    /// The parent, its parent, and so on to the root.
    pub fn ancestors(&self, node: usize) -> impl Iterator<Item = usize> + '_ {
        self.with_ancestors(node).skip(1)
    }

    fn with_ancestors(&self, node: usize) -> impl Iterator<Item = usize> + '_ {
        successors(Some(node), |&reached| self.parent(reached))
    }

    /// The root of the node's tree. A node without ancestors is a root itself.
    pub fn root(&self, node: usize) -> usize {
        self.ancestors(node).last().unwrap_or(node)
    }

    /// The children, their children, and so on.
    pub fn descendants(&self, node: usize) -> Vec<usize> {
        self.with_all_below(self.children(node))
    }

    /// All nodes in document order: from the first root to the last, each with all below it.
    pub fn in_document_order(&self) -> Vec<usize> {
        self.with_all_below(&self.roots)
    }

    /// The given nodes with all below them: a node comes before its children, and a child with all
    /// below it before the next child.
    fn with_all_below(&self, nodes: &[usize]) -> Vec<usize> {
        let mut walked = Vec::new();
        self.walk(nodes, &mut walked);
        walked
    }

    fn walk(&self, nodes: &[usize], walked: &mut Vec<usize>) {
        for &node in nodes {
            walked.push(node);
            self.walk(self.children(node), walked);
        }
    }

    /// What comes after the end of the node: the later siblings of the node and of each of its
    /// ancestors, with all below them.
    fn following(&self, node: usize) -> Vec<usize> {
        let later = |upper| self.with_all_below(self.later_siblings(upper));
        self.with_ancestors(node).flat_map(later).collect()
    }

    /// What has ended before the node starts: the earlier siblings of the node and of each of its
    /// ancestors, with all below them.
    fn preceding(&self, node: usize) -> Vec<usize> {
        let earlier = |upper| self.with_all_below(self.earlier_siblings(upper));
        self.with_ancestors(node).flat_map(earlier).collect()
    }

    fn earlier_siblings(&self, node: usize) -> &[usize] {
        self.sides(node).next().unwrap_or_default()
    }

    fn later_siblings(&self, node: usize) -> &[usize] {
        self.sides(node).nth(1).unwrap_or_default()
    }

    /// The parent's list of children, cut in two at the node: what stands before it, and what
    /// stands after it. A root is in nobody's list.
    fn sides(&self, node: usize) -> impl Iterator<Item = &[usize]> + '_ {
        let list = self.parent(node).map_or(&[][..], |parent| self.children(parent));
        list.splitn(2, move |&child| child == node)
    }
}
