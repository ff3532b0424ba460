//! What a call should answer, by the Rust and by a plain reading of document 01 where the Rust has no answer.

use crate::plain::{children, draws, plain, plain_scripted, random, same_float};
use crate::ratio::Change;
use cases::statefile::{put_state, put_tree};
use cases::text::{put_decimal, put_hexadecimal};
use cases::{Kind, StateFile};
use reference::mcmc::Move;
use reference::tree::Error;
use rove::{Ratio, Refusal, Tree};
use scripted::random::{Random, Spent};
use std::panic::{AssertUnwindSafe, catch_unwind, resume_unwind};

/// How a call ends, with what it leaves.
pub enum Outcome {
    Moved { draws: u64, state: [u64; 4], ratio: Ratio, tree: Tree },
    Declined { draws: u64, state: [u64; 4] },
    Refused(Refusal),
}

/// A call of a tree move. The tuning of a slide is its step.
#[derive(Clone)]
pub struct Call {
    pub kind: Kind,
    pub state: [u64; 4],
    pub allowance: u64,
    pub node: u64,
    pub tuning: f64,
}

/// What was compared, or a difference in full.
pub type Compared<T> = Result<T, String>;

/// The answer to a state file.
pub fn answer(file: &[u8]) -> Compared<Vec<u8>> {
    let outcome = match StateFile::read(file) {
        Err(line) => Outcome::Refused(Refusal::Line(line)),
        Ok(file) => outcome(&file)?,
    };
    Ok(printed(&outcome))
}

/// The outcome of a file that was read.
pub fn outcome(file: &StateFile) -> Compared<Outcome> {
    let nodes = (2 * file.tips).saturating_sub(1);
    if !(3..=4095).contains(&nodes) {
        return Ok(Outcome::Refused(Refusal::Size(nodes)));
    }
    let mut pairs = vec![65_535; 2 * file.tips as usize];
    pairs.extend(file.pairs.iter().flat_map(|&(a, b)| [a, b]));
    let heights = file.heights.iter().map(|&bits| f64::from_bits(bits)).collect();
    let tree = match reference::tree::Tree::new(children(&pairs), heights) {
        Ok(tree) => tree,
        Err(fault) => return Ok(Outcome::Refused(refusal(fault))),
    };
    let call = Call {
        kind: file.kind,
        state: file.state,
        allowance: file.draws,
        node: file.node,
        tuning: f64::from_bits(file.tuning),
    };
    if !limits(&call, nodes, tree.root() as u64) {
        return Ok(Outcome::Refused(Refusal::Parameter(0)));
    }
    run(&call, &plain(&tree), tree)
}

/// Document 01's refusal for a fault that `Tree::new` found.
pub fn refusal(fault: Error) -> Refusal {
    match fault {
        Error::Size { nodes } => Refusal::Size(nodes as u64),
        Error::Shape { node } => Refusal::Shape(node as u64),
        Error::Disconnected => Refusal::Disconnected,
        Error::Height { node } => Refusal::Height(node as u64),
    }
}

/// "tuning 1e-8 to 1"
pub fn tuned(tuning: f64) -> bool {
    (1e-8..=1.0).contains(&tuning)
}

/// "allowance 1 to 65,535"
pub fn allowed(allowance: u64) -> bool {
    (1..=65_535).contains(&allowance)
}

/// The limits of a call on a tree of so many nodes.
pub fn limits(call: &Call, nodes: u64, root: u64) -> bool {
    let own = match call.kind {
        Kind::SubtreeSlide => call.node < nodes && call.node != root && call.tuning.is_finite(),
        kind => !kind.scales() || tuned(call.tuning),
    };
    own && allowed(call.allowance)
}

pub fn rust_move(kind: Kind) -> Move {
    match kind {
        Kind::NodeHeight => Move::NodeHeight,
        Kind::SubtreeSlide => Move::SubtreeSlide,
        Kind::NarrowExchange => Move::NarrowExchange,
        Kind::WideExchange => Move::WideExchange,
        Kind::WilsonBalding => Move::WilsonBalding,
        Kind::RootScale => Move::RootScale,
        Kind::TreeScale => Move::TreeScale,
    }
}

fn scripted_move(kind: Kind) -> scripted::mcmc::Move {
    use scripted::mcmc::Move;
    match kind {
        Kind::NodeHeight => Move::NodeHeight,
        Kind::SubtreeSlide => Move::SubtreeSlide,
        Kind::NarrowExchange => Move::NarrowExchange,
        Kind::WideExchange => Move::WideExchange,
        Kind::WilsonBalding => Move::WilsonBalding,
        Kind::RootScale => Move::RootScale,
        Kind::TreeScale => Move::TreeScale,
    }
}

/// What the Rust's function returned and left, and the draws that it made; None for more than the allowance.
struct Ran {
    log: Option<f64>,
    state: [u64; 4],
    draws: Option<u64>,
    tree: Tree,
}

/// The Rust's call on a tree that it accepted, within its limits.
pub fn run(call: &Call, before: &Tree, tree: reference::tree::Tree) -> Compared<Outcome> {
    let ran = if call.kind == Kind::SubtreeSlide || call.state == [0; 4] {
        run_scripted(call, before)
    } else {
        Some(run_unchanged(call, tree))
    };
    let Some(Ran { log, state, draws: Some(draws), tree }) = ran else {
        return Ok(Outcome::Refused(Refusal::Allowance(call.allowance)));
    };
    let Some(log) = log else {
        return Ok(Outcome::Declined { draws, state });
    };
    if let Some(node) = tree.heights.iter().position(|height| !height.is_finite()) {
        return Ok(Outcome::Refused(Refusal::NotFinite(node as u64)));
    }
    let (kind, node, tuning) = (call.kind, call.node as usize, call.tuning);
    let ratio = Change { kind, state: call.state, node, tuning, before, after: &tree }.ratio();
    let taken = logarithm(ratio, kind, tuning);
    if same_float(log, taken) {
        Ok(Outcome::Moved { draws, state, ratio, tree })
    } else {
        Err(format!("the Rust's logarithm is {log:e}, that of document 01's {ratio:?} is {taken:e}"))
    }
}

/// The logarithm that a host takes: of an upward slide −ln b.
pub fn logarithm(ratio: Ratio, kind: Kind, tuning: f64) -> f64 {
    if kind == Kind::SubtreeSlide && tuning > 0.0 { ratio.ln_upward() } else { ratio.ln() }
}

fn run_unchanged(call: &Call, mut tree: reference::tree::Tree) -> Ran {
    let mut random = random(call.state);
    let log = reference::propose(rust_move(call.kind), &mut tree, call.tuning, &mut random);
    let state = reference::state(&random);
    Ran { log, state, draws: draws(call.state, state, call.allowance), tree: plain(&tree) }
}

/// None where the draws of four zero words are spent.
fn run_scripted(call: &Call, before: &Tree) -> Option<Ran> {
    let heights = before.heights.clone();
    let mut tree = scripted::tree::Tree::new(children(&before.pairs), heights).expect("a tree");
    let slides = call.kind == Kind::SubtreeSlide;
    let mut random = if slides {
        Random::told(call.state, call.allowance, call.node as usize, call.tuning)
    } else {
        Random::of(call.state, call.allowance)
    };
    let tuning = if slides { 1.0 } else { call.tuning };
    let log = unspent(|| scripted::propose(scripted_move(call.kind), &mut tree, tuning, &mut random))?;
    let draws = drawn(&random, call.state, call.allowance);
    Some(Ran { log, state: random.state(), draws, tree: plain_scripted(&tree) })
}

/// The draws that a generator has made since a state, where they are within an allowance.
pub fn drawn(random: &Random, from: [u64; 4], allowance: u64) -> Option<u64> {
    if from == [0; 4] { Some(random.made()) } else { draws(from, random.state(), allowance) }
}

/// What a function gives, unless its draws are spent.
pub fn unspent<T>(run: impl FnOnce() -> T) -> Option<T> {
    match catch_unwind(AssertUnwindSafe(run)) {
        Ok(value) => Some(value),
        Err(why) if why.is::<Spent>() => None,
        Err(why) => resume_unwind(why),
    }
}

/// The text of an outcome.
pub fn printed(outcome: &Outcome) -> Vec<u8> {
    let mut text = Vec::new();
    match outcome {
        Outcome::Refused(refusal) => text.extend_from_slice(format!("answer={refusal}").as_bytes()),
        Outcome::Declined { draws, state } => put_answer(&mut text, "declined", *draws, *state),
        Outcome::Moved { draws, state, ratio, tree } => {
            put_answer(&mut text, "moved", *draws, *state);
            text.extend_from_slice(b"\nratio=");
            put_ratio(&mut text, *ratio);
            text.extend_from_slice(b"\nroot=");
            put_decimal(&mut text, tree.root as u64);
            text.push(b'\n');
            let internal = tree.pairs.chunks_exact(2).skip(tree.tips());
            let pairs: Vec<(u16, u16)> = internal.map(|pair| (pair[0], pair[1])).collect();
            let heights: Vec<u64> = tree.heights.iter().map(|x| x.to_bits()).collect();
            put_tree(&mut text, &pairs, &heights);
            return text;
        }
    }
    text.push(b'\n');
    text
}

fn put_answer(text: &mut Vec<u8>, answer: &str, draws: u64, state: [u64; 4]) {
    text.extend_from_slice(b"answer=");
    text.extend_from_slice(answer.as_bytes());
    text.extend_from_slice(b"\ndraws=");
    put_decimal(text, draws);
    put_state(text, state);
}

fn put_ratio(text: &mut Vec<u8>, ratio: Ratio) {
    match ratio {
        Ratio::Even => text.extend_from_slice(b"even"),
        Ratio::Counts(a, b) => text.extend_from_slice(format!("counts,{a},{b}").as_bytes()),
        Ratio::Lengths(a, b) => {
            text.extend_from_slice(b"lengths,");
            put_hexadecimal(text, a.to_bits());
            text.push(b',');
            put_hexadecimal(text, b.to_bits());
        }
        Ratio::Power(f, k) => {
            text.extend_from_slice(b"power,");
            put_hexadecimal(text, f.to_bits());
            text.extend_from_slice(format!(",{k}").as_bytes());
        }
    }
}
