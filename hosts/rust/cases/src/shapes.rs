//! Trees of every shape and dating: pairs and heights as `Tree::new` takes them.

use crate::chance::Chance;

/// The mark of no node.
pub const NONE: u16 = 65_535;

/// A tree's pairs, node k's children at 2k and 2k + 1, and its heights.
#[derive(Clone, Debug)]
pub struct Sample {
    pub pairs: Vec<u16>,
    pub heights: Vec<f64>,
}

#[derive(Clone, Copy)]
enum Joining {
    Any,
    Comb,
    Balanced,
}

/// How heights are given: the ages of tips, and what a parent is above its taller child.
#[derive(Clone, Copy)]
enum Dating {
    Present,
    Dated,
    Ties,
    Zeros,
    Huge,
    Subnormal,
    Mixed,
}

const DATINGS: [Dating; 10] = [
    Dating::Present,
    Dating::Present,
    Dating::Dated,
    Dating::Dated,
    Dating::Ties,
    Dating::Ties,
    Dating::Zeros,
    Dating::Huge,
    Dating::Subnormal,
    Dating::Mixed,
];

/// A number of tips: mostly few, at times as many as a tree may have.
pub fn tips(chance: &mut Chance) -> usize {
    match chance.below(1000) {
        0 => 2048,
        1..3 => chance.between(100, 2047),
        3..20 => chance.between(33, 101),
        20..200 => chance.between(9, 32),
        _ => chance.between(2, 8),
    }
}

impl Sample {
    pub fn nodes(&self) -> usize {
        self.heights.len()
    }

    pub fn tips(&self) -> usize {
        self.nodes().div_ceil(2)
    }

    pub fn pair(&self, node: usize) -> (usize, usize) {
        (self.pairs[2 * node].into(), self.pairs[2 * node + 1].into())
    }

    /// Each node's parent; the mark where none has the node for a child.
    pub fn parents(&self) -> Vec<u16> {
        let mut parents = vec![NONE; self.nodes()];
        for node in self.tips()..self.nodes() {
            let (a, b) = self.pair(node);
            for child in [a, b] {
                if child < parents.len() {
                    parents[child] = node as u16;
                }
            }
        }
        parents
    }

    /// The node that is no child.
    pub fn root(&self) -> usize {
        self.parents().iter().position(|&p| p == NONE).unwrap_or(0)
    }

    /// A tree of so many tips, two or more.
    pub fn tree(chance: &mut Chance, tips: usize) -> Self {
        let joining = chance.pick(&[Joining::Any, Joining::Any, Joining::Comb, Joining::Balanced]);
        let dating = chance.pick(&DATINGS);
        let nodes = 2 * tips - 1;
        let mut sample = Self { pairs: vec![NONE; 2 * nodes], heights: vec![0.0; nodes] };
        for tip in 0..tips {
            sample.heights[tip] = dating.tip(chance);
        }
        for (node, (a, b)) in joins(chance, joining, tips) {
            sample.pairs[2 * node] = a as u16;
            sample.pairs[2 * node + 1] = b as u16;
            let (x, y) = (sample.heights[a], sample.heights[b]);
            sample.heights[node] = dating.above(chance, if x < y { y } else { x });
        }
        sample.stretch(chance, dating);
        sample
    }

    /// A tree as it mostly comes: tips at the present, every branch of some length.
    pub fn plain(chance: &mut Chance, tips: usize) -> Self {
        let nodes = 2 * tips - 1;
        let mut sample = Self { pairs: vec![NONE; 2 * nodes], heights: vec![0.0; nodes] };
        for (node, (a, b)) in joins(chance, Joining::Any, tips) {
            sample.pairs[2 * node] = a as u16;
            sample.pairs[2 * node + 1] = b as u16;
            let lower = sample.heights[a].max(sample.heights[b]);
            sample.heights[node] = lower + 0.001 + chance.unit();
        }
        sample
    }

    /// A comb of so many tips, each height one above the next: the long side is the first child of every node, or the second.
    /// Numbered in the order of its heights.
    pub fn comb(tips: usize, first: bool) -> Self {
        let nodes = 2 * tips - 1;
        let mut pairs = vec![NONE; 2 * nodes];
        for node in tips..nodes {
            let long = if node == tips { 0 } else { node - 1 };
            let (a, b) = if first { (long, node - tips + 1) } else { (node - tips + 1, long) };
            pairs[2 * node] = a as u16;
            pairs[2 * node + 1] = b as u16;
        }
        let heights = (0..nodes).map(|node| node.saturating_sub(tips - 1) as f64).collect();
        Self { pairs, heights }
    }

    /// A tree of so many tips that is as flat as one can be, each height half above the taller child's.
    pub fn balanced(tips: usize) -> Self {
        let nodes = 2 * tips - 1;
        let mut sample = Self { pairs: vec![NONE; 2 * nodes], heights: vec![0.0; nodes] };
        for node in tips..nodes {
            let a = 2 * (node - tips);
            sample.pairs[2 * node] = a as u16;
            sample.pairs[2 * node + 1] = a as u16 + 1;
            sample.heights[node] = sample.heights[a].max(sample.heights[a + 1]) + 0.5;
        }
        sample
    }

    /// The same tree with its internal nodes numbered in the order in which the parentheses of its Newick copy close.
    pub fn closing(&self) -> Self {
        let (tips, mut next) = (self.tips(), self.tips());
        let mut numbers: Vec<usize> = (0..self.nodes()).collect();
        let mut pairs = vec![NONE; 2 * self.nodes()];
        let mut heights = self.heights.clone();
        let mut stack = vec![(self.root(), false)];
        while let Some((node, below)) = stack.pop() {
            if node < tips {
                continue;
            }
            let (a, b) = self.pair(node);
            if below {
                pairs[2 * next] = numbers[a] as u16;
                pairs[2 * next + 1] = numbers[b] as u16;
                heights[next] = self.heights[node];
                numbers[node] = next;
                next += 1;
            } else {
                stack.extend([(node, true), (b, false), (a, false)]);
            }
        }
        Self { pairs, heights }
    }

    /// Scales the heights so that the root comes near the largest float, where they are to be huge. Products round in
    /// order, so that no child comes above its parent.
    fn stretch(&mut self, chance: &mut Chance, dating: Dating) {
        let top = self.heights.iter().copied().fold(0.0, f64::max);
        if !matches!(dating, Dating::Huge) || top == 0.0 {
            return;
        }
        let factor = f64::MAX / top * chance.pick(&[1.0, 0.75, 0.5, 0.3]);
        for height in &mut self.heights {
            *height = (*height * factor).min(f64::MAX);
        }
    }
}

/// Which internal node gets which children, lower ones first; the nodes by number, or by chance.
fn joins(chance: &mut Chance, joining: Joining, tips: usize) -> Vec<(usize, (usize, usize))> {
    let mut numbers: Vec<usize> = (tips..2 * tips - 1).collect();
    if !chance.once_in(4) {
        shuffle(chance, &mut numbers);
    }
    let mut pool: Vec<usize> = (0..tips).collect();
    shuffle(chance, &mut pool);
    let mut joins = Vec::with_capacity(numbers.len());
    let mut next = 0;
    for node in numbers {
        let (a, b) = match joining {
            Joining::Any => (take(chance, &mut pool), take(chance, &mut pool)),
            Joining::Comb => (pool.pop().expect("two left"), pool.pop().expect("one left")),
            Joining::Balanced => {
                next += 2;
                (pool[next - 2], pool[next - 1])
            }
        };
        joins.push((node, if chance.once_in(2) { (a, b) } else { (b, a) }));
        pool.push(node);
    }
    joins
}

fn take(chance: &mut Chance, pool: &mut Vec<usize>) -> usize {
    let at = chance.below(pool.len());
    pool.swap_remove(at)
}

fn shuffle(chance: &mut Chance, list: &mut [usize]) {
    for last in (1..list.len()).rev() {
        list.swap(last, chance.below(last + 1));
    }
}

impl Dating {
    fn tip(self, chance: &mut Chance) -> f64 {
        match self {
            Self::Present => 0.0,
            Self::Dated => chance.unit() * chance.pick(&[0.0, 1.0, 3.0]),
            Self::Ties | Self::Huge => chance.below(3) as f64,
            Self::Zeros => chance.pick(&[0.0, -0.0]),
            Self::Subnormal => f64::from_bits(chance.below(3) as u64),
            Self::Mixed => power(chance),
        }
    }

    /// A height that is not below the one given.
    fn above(self, chance: &mut Chance, lower: f64) -> f64 {
        let height = match self {
            Self::Present | Self::Dated => lower + chance.unit(),
            Self::Ties => lower + chance.below(2) as f64,
            Self::Zeros => return chance.pick(&[0.0, -0.0]),
            Self::Huge => lower + chance.unit() * 4.0,
            Self::Subnormal => lower + f64::from_bits(chance.below(4) as u64),
            Self::Mixed => lower + power(chance),
        };
        height.min(f64::MAX)
    }
}

/// A power of two from the least float to far above 1, or a zero.
fn power(chance: &mut Chance) -> f64 {
    let exponent = chance.pick(&[0, 1, 2, 512, 900, 1000, 1020, 1023, 1024, 1030, 1100, 1500]);
    if chance.once_in(4) { 0.0 } else { f64::from_bits(exponent << 52 | chance.word() >> 60) }
}
