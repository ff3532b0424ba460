//! A plain reading of document 01's ratios. The Rust gives only their logarithm, with which the reading is compared.

use crate::plain::random;
use cases::Kind;
use rove::{Ratio, Tree};

/// What a move was given, and the tree before and after it.
pub struct Change<'a> {
    pub kind: Kind,
    pub state: [u64; 4],
    /// A slide's node.
    pub node: usize,
    /// A scale's tuning, or a slide's step.
    pub tuning: f64,
    pub before: &'a Tree,
    pub after: &'a Tree,
}

impl Change<'_> {
    pub fn ratio(&self) -> Ratio {
        let internal = (self.before.nodes() - self.before.tips()) as i64;
        match self.kind {
            Kind::NodeHeight | Kind::WideExchange => Ratio::Even,
            Kind::RootScale => Ratio::Power(self.factor(), -1),
            Kind::TreeScale => Ratio::Power(self.factor(), internal - 2),
            Kind::NarrowExchange => Ratio::Counts(grandparents(self.before), grandparents(self.after)),
            Kind::WilsonBalding => self.ranges(),
            Kind::SubtreeSlide => self.slid(),
        }
    }

    /// s + u·(1/s − s). A draw of four zero words is 0.
    fn factor(&self) -> f64 {
        let u = if self.state == [0; 4] { 0.0 } else { random(self.state).uniform() };
        self.tuning + u * (1.0 / self.tuning - self.tuning)
    }

    /// The new range over the old, of the nodes that are drawn.
    fn ranges(&self) -> Ratio {
        let tree = self.before;
        let mut random = random(self.state);
        let mut draw = |listed: &dyn Fn(usize) -> bool| loop {
            let node = random.below(tree.nodes());
            if listed(node) {
                break node;
            }
        };
        let i = draw(&|node| node != tree.root);
        let j = draw(&|node| {
            node != i && (node == tree.root || height(tree, parent(tree, node)) > height(tree, i))
        });
        let (p, q) = (parent(tree, i), parent(tree, j));
        let new = height(tree, q) - height(tree, i).max(height(tree, j));
        let old = height(tree, parent(tree, p)) - height(tree, i).max(height(tree, sibling(tree, i)));
        Ratio::Lengths(new, old)
    }

    /// Whether P is on another branch is seen by whether the node has another sibling.
    fn slid(&self) -> Ratio {
        let (was, is) = (sibling(self.before, self.node), sibling(self.after, self.node));
        if was == is {
            return Ratio::Even;
        }
        let p = parent(self.before, self.node);
        if height(self.after, p) > height(self.before, p) {
            Ratio::Counts(1, branches(self.after, is, height(self.before, p)))
        } else {
            Ratio::Counts(branches(self.before, was, height(self.after, p)), 1)
        }
    }
}

fn height(tree: &Tree, node: usize) -> f64 {
    tree.heights[node]
}

fn parent(tree: &Tree, node: usize) -> usize {
    tree.parents[node].into()
}

fn pair(tree: &Tree, node: usize) -> [usize; 2] {
    [tree.pairs[2 * node].into(), tree.pairs[2 * node + 1].into()]
}

fn sibling(tree: &Tree, node: usize) -> usize {
    let [a, b] = pair(tree, parent(tree, node));
    if a == node { b } else { a }
}

/// The internal nodes with an internal child.
fn grandparents(tree: &Tree) -> u64 {
    let internal = |node: usize| node >= tree.tips();
    (tree.tips()..tree.nodes()).filter(|&node| pair(tree, node).into_iter().any(internal)).count() as u64
}

/// The branches under a node whose child is below a height and whose parent is not.
fn branches(tree: &Tree, node: usize, level: f64) -> u64 {
    let mut count = 0;
    let mut waiting = vec![node];
    while let Some(upper) = waiting.pop() {
        if upper < tree.tips() {
            continue;
        }
        for lower in pair(tree, upper) {
            count += u64::from(height(tree, lower) < level && height(tree, upper) >= level);
            waiting.push(lower);
        }
    }
    count
}
