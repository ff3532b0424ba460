//! Chains of one move, from one tree and one generator: the Rust's move, the port's without validation, the Rust's with
//! `validate` before it, and the port's checked call, each an exported function with a record that the host keeps; and the
//! unvalidated one by the safe wrapper. Each side takes the logarithm of its ratio: the host with a record by the form that the
//! move's ratio has, the wrapper's by the record's words.

use crate::rounds::{Way, line, medians};
use cases::{Chance, Kind, Sample};
use reference::mcmc::Move;
use reference::random::Random;
use reference::rates::RateVariation;
use reference::speciation::SpeciationState;
use rove::{Answer, Generator, Ratio, Record, Started, Tree, exports, word};
use std::hint::black_box;

const SEED: u64 = 20_261_105;

/// The tuning of both scales.
const TUNING: f64 = 0.75;

pub fn table() {
    println!(
        "| move | nodes | Rust, ns | port, unvalidated | Rust's `validate` and move | port, checked | wrapper, unvalidated | unvalidated over Rust | checked over `validate` and move | wrapper over Rust |"
    );
    println!("|---|---|---|---|---|---|---|---|---|---|");
    for kind in Kind::ALL {
        for (tips, times) in [(16, 8000), (101, 8000), (2048, 2000)] {
            let seen = medians(times, &mut ways(kind, tips, times));
            println!("{}", line(kind.name(), &(2 * tips - 1).to_string(), &seen, &[(0, 1), (2, 3), (0, 4)]));
        }
    }
}

fn ways(kind: Kind, tips: usize, times: usize) -> Vec<Way<'static>> {
    let sample = Sample::plain(&mut Chance::new(SEED), tips);
    let (rust, port) = (rust_tree(&sample), port_tree(&sample));
    let (rust_too, port_too, port_typed) = (rust.clone(), port.clone(), port.clone());
    vec![
        Box::new(move || rust_way(kind, rust.clone(), times, false)),
        Box::new(move || port_way(kind, port.clone(), times, false)),
        Box::new(move || rust_way(kind, rust_too.clone(), times, true)),
        Box::new(move || port_way(kind, port_too.clone(), times, true)),
        Box::new(move || typed_way(kind, port_typed.clone(), times)),
    ]
}

pub fn rust_tree(sample: &Sample) -> reference::tree::Tree {
    let pair = |node: usize| (node >= sample.tips()).then(|| sample.pair(node));
    reference::tree::Tree::new((0..sample.nodes()).map(pair).collect(), sample.heights.clone())
        .expect("a tree")
}

pub fn port_tree(sample: &Sample) -> Tree {
    Tree::new(sample.pairs.clone(), sample.heights.clone()).expect("a tree")
}

fn rust_way(kind: Kind, mut tree: reference::tree::Tree, times: usize, validate: bool) -> Box<dyn FnMut()> {
    let mut random = Random::new(SEED);
    let size = tree.height(tree.root()) * 0.1;
    let (kind, tuning) = match kind {
        Kind::NodeHeight => (Move::NodeHeight, 0.0),
        Kind::SubtreeSlide => (Move::SubtreeSlide, size),
        Kind::NarrowExchange => (Move::NarrowExchange, 0.0),
        Kind::WideExchange => (Move::WideExchange, 0.0),
        Kind::WilsonBalding => (Move::WilsonBalding, 0.0),
        Kind::RootScale => (Move::RootScale, TUNING),
        Kind::TreeScale => (Move::TreeScale, TUNING),
    };
    let (mut speciation, mut rates) = (SpeciationState::Yule { birth_rate: 1.0 }, RateVariation::default());
    Box::new(move || {
        for _ in 0..times {
            if validate {
                black_box(tree.validate().is_ok());
            }
            let (speciation, rates) = (&mut speciation, &mut rates);
            let upper = f64::MAX;
            black_box(reference::propose_parameter(
                kind,
                &mut tree,
                speciation,
                rates,
                upper,
                tuning,
                &mut random,
            ));
        }
    })
}

/// Calls of a move's exported function, which looks at the tree first or does not.
fn port_way(kind: Kind, tree: Tree, times: usize, checked: bool) -> Box<dyn FnMut()> {
    /// A chain of the first function, or of the second, which is the first without validation; each slice is read or lent.
    macro_rules! either {
        ($name:ident, $bare:ident, [$($pairs:tt)+] [$($heights:tt)+], $log:expr) => {
            if checked {
                let call = |t: &mut Tree, w: &mut [u64]| {
                    exports::$name($($pairs)+ t.pairs, $($pairs)+ t.parents, $($heights)+ t.heights, w)
                };
                chain(tree, times, call, $log)
            } else {
                let call = |t: &mut Tree, w: &mut [u64]| {
                    exports::$bare($($pairs)+ t.pairs, $($pairs)+ t.parents, $($heights)+ t.heights, w)
                };
                chain(tree, times, call, $log)
            }
        };
    }
    match kind {
        Kind::NodeHeight => either!(rove_node_height, rove_node_height_unvalidated, [&] [&mut], log_even),
        Kind::SubtreeSlide => slides(tree, times, checked),
        Kind::NarrowExchange => {
            either!(rove_narrow_exchange, rove_narrow_exchange_unvalidated, [&mut] [&], log_counts)
        }
        Kind::WideExchange => {
            either!(rove_wide_exchange, rove_wide_exchange_unvalidated, [&mut] [&], log_even)
        }
        Kind::WilsonBalding => {
            either!(rove_wilson_balding, rove_wilson_balding_unvalidated, [&mut] [&mut], log_lengths)
        }
        Kind::RootScale => either!(rove_root_scale, rove_root_scale_unvalidated, [&] [&mut], log_power),
        Kind::TreeScale => either!(rove_tree_scale, rove_tree_scale_unvalidated, [&] [&mut], log_power),
    }
}

/// The record of a chain on a tree.
fn record(tree: &Tree) -> Record {
    let mut record = Record::empty();
    record.set_state(Generator::new(SEED).state());
    record.set_index(word::ROOT, tree.root);
    record.set(word::ALLOWANCE, 65_535);
    record.set_float(word::TUNING, TUNING);
    record
}

/// The logarithms of the ratios that a move has by document 01, from the words of a call that moved: 1 over 1, two counts, two
/// lengths, a factor to a power; and a slide's, even or of the one count that is not 1.
fn log_even(_: &Record) -> f64 {
    0.0
}

fn log_counts(record: &Record) -> f64 {
    (whole(record, word::FIRST) / whole(record, word::SECOND)).ln()
}

fn log_lengths(record: &Record) -> f64 {
    (record.float(word::FIRST) / record.float(word::SECOND)).ln()
}

fn log_power(record: &Record) -> f64 {
    whole(record, word::SECOND) * record.float(word::FIRST).ln()
}

fn log_slide(record: &Record, step: f64) -> f64 {
    if record.0[word::KIND] == 0 {
        0.0
    } else if step > 0.0 {
        -whole(record, word::SECOND).ln()
    } else {
        whole(record, word::FIRST).ln()
    }
}

fn whole(record: &Record, place: usize) -> f64 {
    record.0[place] as i64 as f64
}

/// Calls of one function, the record being kept.
fn chain(
    mut tree: Tree,
    times: usize,
    call: impl Fn(&mut Tree, &mut [u64]) -> u64 + 'static,
    log: impl Fn(&Record) -> f64 + 'static,
) -> Box<dyn FnMut()> {
    let mut record = record(&tree);
    Box::new(move || {
        for _ in 0..times {
            let code = call(&mut tree, &mut record.0);
            black_box((code == 0).then(|| log(&record)));
        }
    })
}

/// Both calls of a slide, with the step that the host forms.
fn slides(mut tree: Tree, times: usize, checked: bool) -> Box<dyn FnMut()> {
    let mut record = record(&tree);
    let size = tree.heights[tree.root] * 0.1;
    Box::new(move || {
        for _ in 0..times {
            let Tree { pairs, parents, heights, .. } = &mut tree;
            let words = &mut record.0;
            if checked {
                exports::rove_slide_start(pairs, parents, heights, words);
            } else {
                exports::rove_slide_start_unvalidated(pairs, parents, heights, words);
            }
            let uniforms = [record.float(word::FIRST), record.float(word::SECOND)];
            let step = Started { node: 0, uniforms, draws: 0 }.step(size);
            record.set_float(word::TUNING, step);
            let words = &mut record.0;
            let code = if checked {
                exports::rove_subtree_slide(pairs, parents, heights, words)
            } else {
                exports::rove_subtree_slide_unvalidated(pairs, parents, heights, words)
            };
            black_box((code == 0).then(|| log_slide(&record, step)));
        }
    })
}

/// The logarithm of a ratio, of a slide by its step, of any other with a step of 0.
fn log(ratio: Ratio, step: f64) -> f64 {
    if step > 0.0 { ratio.ln_upward() } else { ratio.ln() }
}

/// Calls of a move by the safe wrapper, the tree being left unvalidated.
fn typed_way(kind: Kind, mut tree: Tree, times: usize) -> Box<dyn FnMut()> {
    let mut generator = Generator::new(SEED);
    let size = tree.heights[tree.root] * 0.1;
    Box::new(move || {
        for _ in 0..times {
            let (answer, step) = typed(kind, &mut tree, size, &mut generator);
            black_box(match answer {
                Answer::Moved(moved) => Some(log(moved.ratio, step)),
                _ => None,
            });
        }
    })
}

#[inline]
fn typed(kind: Kind, tree: &mut Tree, size: f64, generator: &mut Generator) -> (Answer, f64) {
    let answer = match kind {
        Kind::NodeHeight => tree.node_height_unvalidated(generator, 65_535),
        Kind::SubtreeSlide => {
            let started = tree.slide_start_unvalidated(generator, 65_535).expect("draws to spare");
            let step = started.step(size);
            return (tree.subtree_slide_unvalidated(started.node, step, generator, 65_535), step);
        }
        Kind::NarrowExchange => tree.narrow_exchange_unvalidated(generator, 65_535),
        Kind::WideExchange => tree.wide_exchange_unvalidated(generator, 65_535),
        Kind::WilsonBalding => tree.wilson_balding_unvalidated(generator, 65_535),
        Kind::RootScale => tree.root_scale_unvalidated(TUNING, generator, 65_535),
        Kind::TreeScale => tree.tree_scale_unvalidated(TUNING, generator, 65_535),
    };
    (answer, 0.0)
}
