//! The kept count of a step, read from the links of the nodes.

use crate::forest::Forest;
use std::collections::BTreeSet;

/// The number of distinct pairs that remain when redundant ones are dropped.
pub(crate) fn kept_count(forest: &Forest, pairs: &[(usize, usize)], axis: usize) -> usize {
    let of_roles = pairs.chunk_by(|one, next| one.0 == next.0);
    of_roles.map(|of_role| kept_of_role(forest, of_role, axis)).sum()
}

/// The same for one role. On axes 3 and 4 a pair below another is redundant, on 6 and 7 a pair
/// above another; on 8 and 9 one remains for each tree, which is known by its root.
fn kept_of_role(forest: &Forest, of_role: &[(usize, usize)], axis: usize) -> usize {
    let held = || of_role.iter().map(|&(_, node)| node);
    match axis {
        3 | 4 => {
            let is_held = forest.marks(held());
            held().filter(|&node| !forest.ancestors(node).any(|upper| is_held[upper])).count()
        }
        6 | 7 => {
            let is_above = forest.marks(held().flat_map(|node| forest.ancestors(node)));
            held().filter(|&node| !is_above[node]).count()
        }
        8 | 9 => held().map(|node| forest.root(node)).collect::<BTreeSet<usize>>().len(),
        _ => of_role.len(),
    }
}
