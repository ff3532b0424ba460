//! Trees in memory that may be none, and what should be said of them.

use crate::oracle;
use crate::plain::{children, port_tree};
use cases::{Chance, Sample, shapes};
use rove::{Refusal, Tree};

/// A tree in memory with one or two damages, or none.
pub fn wrong_tree(chance: &mut Chance) -> Tree {
    let tips = shapes::tips(chance);
    let mut tree = port_tree(&Sample::tree(chance, tips));
    for _ in 0..chance.pick(&[0, 1, 1, 2]) {
        damage(chance, &mut tree);
    }
    tree
}

fn damage(chance: &mut Chance, tree: &mut Tree) {
    let nodes = tree.heights.len();
    if nodes == 0 || tree.pairs.len() < 2 * nodes || tree.parents.len() < nodes {
        return;
    }
    let (node, other) = (chance.below(nodes), chance.below(nodes));
    let any = if chance.once_in(4) { chance.pick(&[65_535, 65_534, nodes as u16]) } else { other as u16 };
    match chance.below(14) {
        0 | 1 => tree.pairs[chance.below(2 * nodes)] = any,
        2 | 3 => {
            let (from, to) = (chance.below(2 * nodes), chance.below(2 * nodes));
            tree.pairs.swap(from, to);
        }
        4 => tree.parents[node] = any,
        5 => tree.parents.swap(node, other),
        6 => tree.root = other,
        7 => tree.root = chance.pick(&[nodes, 65_535, usize::MAX, 1 << 32, nodes + (1 << 16)]),
        8 => tree.heights[node] = chance.float(),
        9 => tree.heights[node] = tree.heights[node].next_up(),
        10 => tree.heights.swap(node, other),
        11 => drop(tree.pairs.pop()),
        12 => drop(tree.parents.pop()),
        _ => lengths(chance, tree),
    }
}

/// Other lengths: longer, shorter or none at all.
fn lengths(chance: &mut Chance, tree: &mut Tree) {
    match chance.below(6) {
        0 => tree.heights.push(0.0),
        1 => tree.parents.push(0),
        2 => tree.pairs.extend([65_535; 2]),
        3 => tree.heights.clear(),
        4 => tree.pairs.truncate(4),
        _ => *tree = Tree { pairs: Vec::new(), parents: Vec::new(), heights: Vec::new(), root: 0 },
    }
}

/// The Rust's tree of these slices, or the refusal: in the order of the numbers, so that parents or a root that are not
/// those of the pairs come before a height.
pub fn judged(tree: &Tree) -> Result<reference::tree::Tree, Refusal> {
    let nodes = tree.nodes();
    let sized = (3..=4095).contains(&nodes) && nodes % 2 == 1;
    if !sized || tree.pairs.len() != 2 * nodes || tree.heights.len() != nodes || tree.parents.len() != nodes {
        return Err(Refusal::Size(nodes as u64));
    }
    let made = reference::tree::Tree::new(children(&tree.pairs), tree.heights.clone());
    if let Ok(_) | Err(reference::tree::Error::Height { .. }) = made {
        let sample = Sample { pairs: tree.pairs.clone(), heights: tree.heights.clone() };
        if sample.parents() != tree.parents || sample.root() != tree.root {
            return Err(Refusal::Disconnected);
        }
    }
    made.map_err(oracle::refusal)
}
