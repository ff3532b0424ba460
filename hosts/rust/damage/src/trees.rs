//! The functions that do not look at the tree, on slices that are none: they end and stay within them.

use cases::{Chance, Guarded, Progress, Sample, shapes};
use rove::{WORDS, exports, word};

type Unvalidated = fn(&mut [u16], &mut [u16], &mut [f64], &mut [u64]) -> u64;

const CALLS: [Unvalidated; 8] = [
    |pairs, parents, heights, words| exports::rove_node_height_unvalidated(pairs, parents, heights, words),
    |pairs, parents, heights, words| exports::rove_slide_start_unvalidated(pairs, parents, heights, words),
    |pairs, parents, heights, words| exports::rove_subtree_slide_unvalidated(pairs, parents, heights, words),
    |pairs, parents, heights, words| {
        exports::rove_narrow_exchange_unvalidated(pairs, parents, heights, words)
    },
    |pairs, parents, heights, words| exports::rove_wide_exchange_unvalidated(pairs, parents, heights, words),
    |pairs, parents, heights, words| exports::rove_wilson_balding_unvalidated(pairs, parents, heights, words),
    |pairs, parents, heights, words| exports::rove_root_scale_unvalidated(pairs, parents, heights, words),
    |pairs, parents, heights, words| exports::rove_tree_scale_unvalidated(pairs, parents, heights, words),
];

/// A slide down a chain of as many nodes as have numbers, which no stack would hold if each node took a call.
pub fn deep() -> Result<String, String> {
    let nodes = 65_535usize;
    let tips = nodes.div_ceil(2);
    let mut pairs = vec![65_535; 2 * nodes];
    let mut parents = vec![65_535; nodes];
    for node in tips..nodes {
        let first = if node == tips { 0 } else { node - 1 };
        for (side, child) in [first, node - tips + 1].into_iter().enumerate() {
            pairs[2 * node + side] = child as u16;
            parents[child] = node as u16;
        }
    }
    let mut heights: Vec<f64> = (0..nodes).map(|node| node.saturating_sub(tips - 1) as f64).collect();
    let mut words = [0; WORDS];
    words[word::ROOT] = nodes as u64 - 1;
    words[word::ALLOWANCE] = 65_535;
    words[word::NODE] = nodes as u64 - tips as u64;
    words[word::TUNING] = (0.5 - (nodes - tips) as f64).to_bits();
    let code = exports::rove_subtree_slide_unvalidated(&mut pairs, &mut parents, &mut heights, &mut words);
    if code == 2 && words[word::KIND] == 1 {
        Ok(format!("damage: an unvalidated slide on {nodes} nodes refused"))
    } else {
        Err(format!("an unvalidated slide on {nodes} nodes returned {code}"))
    }
}

pub fn damage(count: u64, seed: u64) -> Result<String, String> {
    let mut chance = Chance::new(seed);
    let mut progress = Progress::new("unvalidated calls", count);
    let mut answers = [0; 4];
    for done in 1..=count {
        let code = call(&mut chance)?;
        answers[code as usize % 4] += 1;
        progress.done(done);
    }
    Ok(format!(
        "damage: {count} unvalidated calls on slices that may be no tree, answers 0 to 2: {:?}; guards kept",
        &answers[..3]
    ))
}

fn call(chance: &mut Chance) -> Result<u64, String> {
    let tips = shapes::tips(chance);
    let (pairs, parents, heights, root) = slices(chance, tips);
    let call = chance.pick(&CALLS);
    let mut pairs = Guarded::new(&pairs, |word| word as u16, chance);
    let mut parents = Guarded::new(&parents, |word| word as u16, chance);
    let mut heights = Guarded::new(&heights, |word| (word >> 12) as f64, chance);
    let mut words: [u64; WORDS] = chance.words();
    words[word::ROOT] = root as u64;
    words[word::ALLOWANCE] = chance.pick(&[1, 2, 100, 65_535]);
    words[word::NODE] = chance.below(2 * tips + 1) as u64;
    words[word::TUNING] = chance.pick(&[0.5f64, 1.0, 1e-8, -0.25, 3.0]).to_bits();
    let mut record = Guarded::new(&words, |word| word, chance);
    let code = call(pairs.items_mut(), parents.items_mut(), heights.items_mut(), record.items_mut());
    let kept = pairs.guards_kept() && parents.guards_kept() && heights.guards_kept() && record.guards_kept();
    if kept && code < 3 {
        Ok(code)
    } else {
        Err(format!("an unvalidated call returned {code}; guards kept: {kept}"))
    }
}

/// Slices of a tree with much of it changed.
pub fn slices(chance: &mut Chance, tips: usize) -> (Vec<u16>, Vec<u16>, Vec<f64>, usize) {
    let Sample { mut pairs, mut heights } = Sample::tree(chance, tips);
    let sample = Sample { pairs: pairs.clone(), heights: heights.clone() };
    let (mut parents, mut root) = (sample.parents(), sample.root());
    let nodes = sample.nodes();
    for _ in 0..chance.pick(&[0, 1, 3, 10, 2 * nodes]) {
        let any = if chance.once_in(8) { chance.word() as u16 } else { chance.below(nodes) as u16 };
        match chance.below(4) {
            0 => pairs[chance.below(2 * nodes)] = any,
            1 => parents[chance.below(nodes)] = any,
            2 => heights[chance.below(nodes)] = chance.float(),
            _ => root = chance.pick(&[any.into(), nodes, usize::MAX]),
        }
    }
    if chance.once_in(4) {
        pairs.truncate(chance.below(2 * nodes));
    }
    if chance.once_in(4) {
        parents.truncate(chance.below(nodes));
    }
    if chance.once_in(4) {
        heights.truncate(chance.below(nodes));
    }
    (pairs, parents, heights, root)
}
