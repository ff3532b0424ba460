//! Trees of the Rust as plain slices, and comparison by bits.

use cases::Sample;
use reference::random::Random;
use rove::Tree;

const NONE: u16 = 65_535;

/// A tree of the Rust, of either build, as slices.
macro_rules! plain {
    ($name:ident, $tree:ty) => {
        pub fn $name(tree: &$tree) -> Tree {
            let nodes = tree.nodes();
            let pairs = (0..nodes).flat_map(|k| pair(tree.children(k))).collect();
            let parents = (0..nodes).map(|k| mark(tree.parent(k))).collect();
            let heights = (0..nodes).map(|k| tree.height(k)).collect();
            Tree { pairs, parents, heights, root: tree.root() }
        }
    };
}

plain!(plain, reference::tree::Tree);
plain!(plain_scripted, scripted::tree::Tree);

fn pair(children: Option<(usize, usize)>) -> [u16; 2] {
    children.map_or([NONE; 2], |(a, b)| [a as u16, b as u16])
}

pub fn mark(node: Option<usize>) -> u16 {
    node.map_or(NONE, |node| node as u16)
}

/// The children of each node as `Tree::new` takes them; the mark twice is no children.
pub fn children(pairs: &[u16]) -> Vec<Option<(usize, usize)>> {
    let child = |pair: &[u16]| (pair != [NONE; 2]).then(|| (pair[0].into(), pair[1].into()));
    pairs.chunks_exact(2).map(child).collect()
}

/// The Rust's tree of a sample that is one.
pub fn rust_tree(sample: &Sample) -> reference::tree::Tree {
    reference::tree::Tree::new(children(&sample.pairs), sample.heights.clone()).expect("a tree")
}

pub fn port_tree(sample: &Sample) -> Tree {
    Tree {
        pairs: sample.pairs.clone(),
        parents: sample.parents(),
        heights: sample.heights.clone(),
        root: sample.root(),
    }
}

pub fn same_floats(a: &[f64], b: &[f64]) -> bool {
    a.len() == b.len() && a.iter().zip(b).all(|(x, y)| x.to_bits() == y.to_bits())
}

pub fn same_tree(a: &Tree, b: &Tree) -> bool {
    a.pairs == b.pairs && a.parents == b.parents && a.root == b.root && same_floats(&a.heights, &b.heights)
}

/// The same, of a tree of the Rust as it stands.
pub fn same_as_rust(port: &Tree, rust: &reference::tree::Tree) -> bool {
    port.nodes() == rust.nodes()
        && port.root == rust.root()
        && (0..rust.nodes()).all(|k| {
            port.heights[k].to_bits() == rust.height(k).to_bits()
                && port.parents[k] == mark(rust.parent(k))
                && port.pairs[2 * k..2 * k + 2] == pair(rust.children(k))
        })
}

pub fn same_float(a: f64, b: f64) -> bool {
    a.to_bits() == b.to_bits()
}

/// The Rust's generator of four words that are not all zero.
pub fn random(state: [u64; 4]) -> Random {
    reference::from_state(state).expect("words that are not all zero")
}

/// The draws that lead from one state to another, where there are no more than so many.
pub fn draws(from: [u64; 4], to: [u64; 4], most: u64) -> Option<u64> {
    let mut random = random(from);
    for draws in 0..=most {
        if reference::state(&random) == to {
            return Some(draws);
        }
        random.next_u64();
    }
    None
}

/// Floats by their bits, for a report.
pub fn bits(floats: &[f64]) -> String {
    floats.iter().map(|x| format!("{:016x}", x.to_bits())).collect::<Vec<_>>().join(" ")
}

/// A tree for a report.
pub fn shown(tree: &Tree) -> String {
    format!(
        "root {}, pairs {:?}, parents {:?}, heights {}",
        tree.root,
        tree.pairs,
        tree.parents,
        bits(&tree.heights)
    )
}
