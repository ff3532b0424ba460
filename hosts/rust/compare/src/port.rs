//! The port's calls: by the wrapper's types, or by a record whose other words are noise and have to stay as they are.

use crate::oracle::{Call, Compared};
use cases::{Chance, Kind};
use rove::{Answer, Generator, Record, Refusal, Started, Tree, WORDS, exports, word};

/// How a call is made.
#[derive(Clone, Copy, Debug)]
pub struct Way {
    /// Without a look at the tree.
    pub unvalidated: bool,
    /// By a record.
    pub record: bool,
}

impl Way {
    pub const CHECKED: Self = Self { unvalidated: false, record: true };

    pub fn any(chance: &mut Chance) -> Self {
        Self { unvalidated: chance.once_in(2), record: chance.once_in(2) }
    }
}

/// A record of noise, with a generator, a root and an allowance.
pub fn noisy(chance: &mut Chance, state: [u64; 4], root: usize, allowance: u64) -> Record {
    let mut record = Record(chance.words::<WORDS>());
    record.set_state(state);
    record.set_index(word::ROOT, root);
    record.set(word::ALLOWANCE, allowance);
    record
}

/// A tree move, which changes the tree as the port says, and the generator's words afterwards.
pub fn call(chance: &mut Chance, way: Way, call: &Call, tree: &mut Tree) -> Compared<(Answer, [u64; 4])> {
    if !way.record {
        let mut generator = Generator::from_state(call.state);
        let answer = typed(way.unvalidated, call, tree, &mut generator);
        return Ok((answer, generator.state()));
    }
    let mut record = noisy(chance, call.state, tree.root, call.allowance);
    if call.kind.uses_node() {
        record.set(word::NODE, call.node);
    }
    if call.kind.uses_tuning() {
        record.set_float(word::TUNING, call.tuning);
    }
    let before = record.clone();
    let code = recorded(way.unvalidated, call.kind, tree, &mut record.0);
    kept(code, &before, &record, &[])?;
    tree.root = record.0[word::ROOT] as usize;
    Ok((record.answer(code), record.state()))
}

fn typed(unvalidated: bool, call: &Call, tree: &mut Tree, generator: &mut Generator) -> Answer {
    let (allowance, tuning, node) = (call.allowance, call.tuning, call.node as usize);
    match (call.kind, unvalidated) {
        (Kind::NodeHeight, false) => tree.node_height(generator, allowance),
        (Kind::NodeHeight, true) => tree.node_height_unvalidated(generator, allowance),
        (Kind::SubtreeSlide, false) => tree.subtree_slide(node, tuning, generator, allowance),
        (Kind::SubtreeSlide, true) => tree.subtree_slide_unvalidated(node, tuning, generator, allowance),
        (Kind::NarrowExchange, false) => tree.narrow_exchange(generator, allowance),
        (Kind::NarrowExchange, true) => tree.narrow_exchange_unvalidated(generator, allowance),
        (Kind::WideExchange, false) => tree.wide_exchange(generator, allowance),
        (Kind::WideExchange, true) => tree.wide_exchange_unvalidated(generator, allowance),
        (Kind::WilsonBalding, false) => tree.wilson_balding(generator, allowance),
        (Kind::WilsonBalding, true) => tree.wilson_balding_unvalidated(generator, allowance),
        (Kind::RootScale, false) => tree.root_scale(tuning, generator, allowance),
        (Kind::RootScale, true) => tree.root_scale_unvalidated(tuning, generator, allowance),
        (Kind::TreeScale, false) => tree.tree_scale(tuning, generator, allowance),
        (Kind::TreeScale, true) => tree.tree_scale_unvalidated(tuning, generator, allowance),
    }
}

fn recorded(unvalidated: bool, kind: Kind, tree: &mut Tree, words: &mut [u64]) -> u64 {
    let Tree { pairs, parents, heights, .. } = tree;
    match (kind, unvalidated) {
        (Kind::NodeHeight, false) => exports::rove_node_height(pairs, parents, heights, words),
        (Kind::NodeHeight, true) => exports::rove_node_height_unvalidated(pairs, parents, heights, words),
        (Kind::SubtreeSlide, false) => exports::rove_subtree_slide(pairs, parents, heights, words),
        (Kind::SubtreeSlide, true) => exports::rove_subtree_slide_unvalidated(pairs, parents, heights, words),
        (Kind::NarrowExchange, false) => exports::rove_narrow_exchange(pairs, parents, heights, words),
        (Kind::NarrowExchange, true) => {
            exports::rove_narrow_exchange_unvalidated(pairs, parents, heights, words)
        }
        (Kind::WideExchange, false) => exports::rove_wide_exchange(pairs, parents, heights, words),
        (Kind::WideExchange, true) => exports::rove_wide_exchange_unvalidated(pairs, parents, heights, words),
        (Kind::WilsonBalding, false) => exports::rove_wilson_balding(pairs, parents, heights, words),
        (Kind::WilsonBalding, true) => {
            exports::rove_wilson_balding_unvalidated(pairs, parents, heights, words)
        }
        (Kind::RootScale, false) => exports::rove_root_scale(pairs, parents, heights, words),
        (Kind::RootScale, true) => exports::rove_root_scale_unvalidated(pairs, parents, heights, words),
        (Kind::TreeScale, false) => exports::rove_tree_scale(pairs, parents, heights, words),
        (Kind::TreeScale, true) => exports::rove_tree_scale_unvalidated(pairs, parents, heights, words),
    }
}

/// A slide's first call.
pub fn slide_start(
    chance: &mut Chance,
    way: Way,
    tree: &Tree,
    state: [u64; 4],
    allowance: u64,
) -> Compared<(Result<Started, Refusal>, [u64; 4])> {
    if !way.record {
        let mut generator = Generator::from_state(state);
        let started = if way.unvalidated {
            tree.slide_start_unvalidated(&mut generator, allowance)
        } else {
            tree.slide_start(&mut generator, allowance)
        };
        return Ok((started, generator.state()));
    }
    let mut record = noisy(chance, state, tree.root, allowance);
    let before = record.clone();
    let start =
        if way.unvalidated { exports::rove_slide_start_unvalidated } else { exports::rove_slide_start };
    let code = start(&tree.pairs, &tree.parents, &tree.heights, &mut record.0);
    kept(code, &before, &record, &[word::NODE])?;
    let uniforms = [record.float(word::FIRST), record.float(word::SECOND)];
    let (node, draws) = (record.0[word::NODE] as usize, record.0[word::DRAWS]);
    let started = record.verdict(code).map(|()| Started { node, uniforms, draws });
    Ok((started, record.state()))
}

/// That a call wrote no words but those it may: a refused one 8 to 12, a declined one the generator too, and one that is
/// made also the root and the words named; and that those which hold nothing are 0.
pub fn kept(code: u64, before: &Record, after: &Record, written: &[usize]) -> Compared<()> {
    let may = |place: usize| match place {
        word::ANSWER..=word::SECOND => true,
        0..=3 => code < 2,
        word::ROOT => code == 0,
        place => code == 0 && written.contains(&place),
    };
    let other = (0..WORDS).find(|&place| !may(place) && before.0[place] != after.0[place]);
    let [answer, draws, kind, first, second] = [8, 9, 10, 11, 12].map(|place: usize| after.0[place]);
    let in_order = match code {
        0 => kind <= 3,
        1 => kind == 0 && first == 0 && second == 0,
        2 => draws == 0 && (1..=9).contains(&kind) && second == 0,
        _ => false,
    };
    if other.is_none() && in_order && answer == code {
        return Ok(());
    }
    Err(format!(
        "a call that returned {code} has left its record wrong\nbefore: {:x?}\nafter: {:x?}",
        before.0, after.0
    ))
}
