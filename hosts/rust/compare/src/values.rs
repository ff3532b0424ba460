//! The functions that give a single value: uniforms and coins along a generator, the factor of a scale, the table of moves,
//! what priors estimate, and lengths. They are run beside the other parts, from a chance of their own, and so are single tips.

use crate::clades;
use crate::files;
use crate::oracle::Compared;
use crate::parameters::{priors, set_priors};
use crate::plain::{bits, port_tree, random, rust_tree};
use crate::port::noisy;
use crate::tally::Tally;
use crate::trees::{Called, answered, called, state, stepped};
use crate::wrong::wrong_tree;
use cases::{Chance, Sample, shapes};
use reference::mcmc::Move;
use rove::{Generator, Record, Refusal, Tree, WORDS, exports, word};

/// A trial counts what it has compared.
type Trial = fn(&mut Chance, &mut Tally) -> Compared<()>;

/// Beside the trees.
pub const OF_TREES: [(&str, Trial); 4] = [
    ("a draw", draws),
    ("a length", lengths),
    ("a length of wrong slices", wrong_lengths),
    ("a short record", short),
];

/// Beside the parameters.
pub const OF_PARAMETERS: [(&str, Trial); 4] = [
    ("scaler", scaler),
    ("the table of moves", table),
    ("estimates", estimates),
    ("a single tip", clades::single_tip),
];

/// One of these trials.
pub fn beside(trials: &[(&str, Trial)], chance: &mut Chance, tally: &mut Tally) -> Compared<()> {
    let (name, trial) = chance.pick(trials);
    trial(chance, tally).map_err(|fault| format!("{name} differs: {fault}"))
}

/// That a call gave a float; every NaN is one and the same.
fn is_float(call: &Called, x: f64) -> Compared<&'static str> {
    const NAN: u64 = 0x7ff8_0000_0000_0000;
    let bits = if x.is_nan() { NAN } else { x.to_bits() };
    call.is(0, &answered(0, 0, 0, bits, 0))?;
    Ok("given")
}

/// An answer of one of the functions, whose name a difference begins with.
fn of(name: &str, answer: Compared<&'static str>) -> Compared<&'static str> {
    answer.map_err(|fault| format!("{name}, {fault}"))
}

fn is_flag(call: &Called, holds: bool) -> Compared<&'static str> {
    call.is(0, &answered(0, 0, 0, u64::from(holds), 0))?;
    Ok(if holds { "yes" } else { "no" })
}

// ---- the generator

/// A draw whose top 53 bits are a number of any size, or one at an end of their range or of a part of them.
fn sized_draw(chance: &mut Chance) -> u64 {
    const ENDS: [u64; 6] = [0, 1, (1 << 32) - 1, 1 << 32, 1 << 52, (1 << 53) - 1];
    let size = chance.between(11, 63);
    let numerator = if chance.once_in(4) { chance.pick(&ENDS) } else { chance.word() >> size };
    numerator << 11 | chance.word() >> 53
}

/// The words of a generator whose first draw is the one given, by its last word alone.
fn drawing(draw: u64) -> [u64; 4] {
    [0, 0, 0, draw.rotate_right(23)]
}

/// How a uniform is counted: those below 2^-21, of which a generator gives few, by themselves.
fn size_of(uniform: f64) -> &'static str {
    if uniform * f64::from(1 << 21) < 1.0 { "below 2^-21" } else { "given" }
}

/// Uniforms and coins along a generator, by one record and by the wrapper's generator. Of four zero words, of which the
/// Rust has no generator, each draw is 0.
fn draws(chance: &mut Chance, tally: &mut Tally) -> Compared<()> {
    let from = match chance.below(32) {
        0 => [0; 4],
        1..8 => drawing(sized_draw(chance)),
        _ => state(chance),
    };
    let mut rust = (from != [0; 4]).then(|| random(from));
    let mut typed = Generator::from_state(from);
    let allowance = chance.word();
    let mut record = noisy(chance, from, 0, allowance);
    for _ in 0..chance.pick(&[1, 2, 4, 16]) {
        let coin = chance.once_in(2);
        let (name, drawn, given) = if coin {
            ("coin", u64::from(rust.as_mut().is_some_and(|rust| rust.coin())), "given")
        } else {
            let uniform = rust.as_mut().map_or(0.0, |rust| rust.uniform());
            ("uniform", uniform.to_bits(), size_of(uniform))
        };
        let call = called(record, if coin { exports::rove_coin } else { exports::rove_uniform });
        let after = rust.as_ref().map_or([0; 4], reference::state);
        let answer = call.is(0, &[&stepped(after)[..], &answered(0, 1, 0, drawn, 0)].concat());
        tally.also(name, of(name, answer.map(|()| given))?, 1);
        let by_type = if coin { u64::from(typed.coin()) } else { typed.uniform().to_bits() };
        if by_type != drawn || typed.state() != after {
            return Err(format!("{name} by the wrapper: {by_type:x} and not {drawn:x}, from {from:x?}"));
        }
        record = call.after;
    }
    Ok(())
}

// ---- lengths

fn branch_call(chance: &mut Chance, tree: &Tree, node: u64) -> Called {
    let mut record = Record(chance.words());
    record.set(word::NODE, node);
    called(record, |words| exports::rove_branch_length(&tree.parents, &tree.heights, words))
}

fn tree_call(chance: &mut Chance, tree: &Tree) -> Called {
    called(Record(chance.words()), |words| exports::rove_tree_length(&tree.parents, &tree.heights, words))
}

fn slices(tree: &Tree) -> String {
    format!("parents {:?}, heights {}", tree.parents, bits(&tree.heights))
}

/// Every branch of a tree, and the tree, beside the Rust's.
fn lengths(chance: &mut Chance, tally: &mut Tally) -> Compared<()> {
    let tips = shapes::tips(chance);
    let sample = Sample::tree(chance, tips);
    let (tree, rust) = (port_tree(&sample), rust_tree(&sample));
    let told = |fault| format!("{}{fault}", slices(&tree));
    for node in 0..rust.nodes() {
        let answer = is_float(&branch_call(chance, &tree, node as u64), rust.branch_length(node));
        tally.also("branch_length", of("branch_length", answer.map_err(told))?, 1);
    }
    let answer = is_float(&tree_call(chance, &tree), rust.tree_length());
    tally.also("tree_length", of("tree_length", answer.map_err(told))?, 1);
    let node = chance.below(rust.nodes());
    let typed = [tree.branch_length(node), tree.tree_length()].map(|length| length.map(f64::to_bits));
    if typed == [Ok(rust.branch_length(node).to_bits()), Ok(rust.tree_length().to_bits())] {
        return Ok(());
    }
    Err(told(format!(", by the wrapper at {node}: {typed:x?}")))
}

/// What the definition says of a branch, on any slices.
fn branch(tree: &Tree, node: u64) -> Result<f64, Refusal> {
    let nodes = tree.parents.len();
    if tree.heights.len() != nodes {
        return Err(Refusal::Size(nodes as u64));
    }
    let own = usize::try_from(node).ok().filter(|&node| node < nodes).ok_or(Refusal::Parameter(0))?;
    if tree.parents[own] == 65_535 {
        return Ok(0.0);
    }
    let above = tree.heights.get(usize::from(tree.parents[own])).ok_or(Refusal::Parameter(0))?;
    Ok(above - tree.heights[own])
}

/// The same of all branches.
fn all_branches(tree: &Tree) -> Result<f64, Refusal> {
    if tree.heights.len() != tree.parents.len() {
        return Err(Refusal::Size(tree.parents.len() as u64));
    }
    (0..tree.parents.len() as u64).try_fold(0.0, |total, node| Ok(total + branch(tree, node)?))
}

/// Slices that may be no tree's, and a number that may be no node's.
fn wrong_lengths(chance: &mut Chance, tally: &mut Tally) -> Compared<()> {
    let mut tree = wrong_tree(chance);
    if chance.once_in(4) {
        tree.heights.iter_mut().for_each(|height| *height = chance.float());
    }
    let nodes = tree.parents.len();
    let node = match chance.below(4) {
        0 => chance.pick(&[nodes as u64, tree.root as u64, 65_535, 1 << 32, u64::MAX]),
        _ => chance.below(nodes + 1) as u64,
    };
    let answers = [
        ("branch_length", branch_call(chance, &tree, node), branch(&tree, node)),
        ("tree_length", tree_call(chance, &tree), all_branches(&tree)),
    ];
    for (name, call, expected) in answers {
        let answer = match expected {
            Ok(length) => is_float(&call, length),
            Err(why) => call.is_refused(why),
        };
        tally.also(name, of(name, answer.map_err(|fault| format!("{}{fault}", slices(&tree))))?, 1);
    }
    Ok(())
}

// ---- records that are too short

/// Each function by a name.
type Short = (&'static str, fn(&Tree, &mut [u64]) -> u64);

const SHORT: [Short; 10] = [
    ("uniform", |_, words| exports::rove_uniform(words)),
    ("coin", |_, words| exports::rove_coin(words)),
    ("scaler", |_, words| exports::rove_scaler(words)),
    ("initial_tuning", |_, words| exports::rove_initial_tuning(words)),
    ("changes_fbd", |_, words| exports::rove_changes_fbd(words)),
    ("changes_tree", |_, words| exports::rove_changes_tree(words)),
    ("changes_topology", |_, words| exports::rove_changes_topology(words)),
    ("estimates", |_, words| exports::rove_estimates(words)),
    ("branch_length", |tree, words| exports::rove_branch_length(&tree.parents, &tree.heights, words)),
    ("tree_length", |tree, words| exports::rove_tree_length(&tree.parents, &tree.heights, words)),
];

/// Fewer words than a record has are answered with 3, and stay.
fn short(chance: &mut Chance, tally: &mut Tally) -> Compared<()> {
    let tree = wrong_tree(chance);
    let before: [u64; WORDS] = chance.words();
    let length = chance.below(WORDS);
    for (name, call) in SHORT {
        let mut words = before;
        let code = call(&tree, &mut words[..length]);
        if code != 3 || words != before {
            return Err(format!("{name} with {length} words: {code}, {before:x?}, afterwards {words:x?}"));
        }
        tally.also(name, "no record", 1);
    }
    Ok(())
}

// ---- the factor of a scale

/// The Rust's factor, by its scale of 1.0, where the tuning is within its limits and the uniform is a generator's;
/// document 01's for any other floats.
fn scaler(chance: &mut Chance, tally: &mut Tally) -> Compared<()> {
    let state = state(chance);
    let (tuning, uniform, expected) = if chance.once_in(4) {
        let [s, u] = [chance.float(), chance.float()];
        (s, u, s + u * (1.0 / s - s))
    } else {
        let (tuning, mut factor) = (files::tuning(chance), 1.0);
        let uniform = random(state).uniform();
        reference::mcmc::scale(&mut factor, f64::MAX, tuning, &mut random(state));
        (tuning, uniform, factor)
    };
    let mut record = noisy(chance, state, 0, 0);
    record.set_float(word::TUNING, tuning);
    record.set_float(13, uniform);
    let call = called(record, exports::rove_scaler);
    tally.also("scaler", is_float(&call, expected)?, 1);
    let typed = rove::scaler(tuning, uniform);
    if typed.to_bits() == expected.to_bits() || typed.is_nan() && expected.is_nan() {
        return Ok(());
    }
    Err(format!("by the wrapper of {tuning:e} and {uniform:e}: {typed:e} and not {expected:e}"))
}

// ---- the table of moves

/// What a move changes: the function, the Rust's and the wrapper's.
type Changes = (&'static str, fn(&mut [u64]) -> u64, fn(Move) -> bool, fn(rove::Move) -> bool);

const CHANGES: [Changes; 3] = [
    ("changes_fbd", exports::rove_changes_fbd, Move::changes_fbd, rove::Move::changes_fbd),
    ("changes_tree", exports::rove_changes_tree, Move::changes_tree, rove::Move::changes_tree),
    (
        "changes_topology",
        exports::rove_changes_topology,
        Move::changes_topology,
        rove::Move::changes_topology,
    ),
];

/// A move's number, or one that is none's.
fn number(chance: &mut Chance) -> u64 {
    match chance.below(8) {
        0 => chance.pick(&[25, 26, 31, 256, 65_535, 1 << 32, (1 << 32) + 7, u64::MAX]),
        _ => chance.below(25) as u64,
    }
}

/// A record of noise with a number in the place of a node.
fn numbered(chance: &mut Chance) -> Record {
    let mut record = Record(chance.words());
    record.set(word::NODE, number(chance));
    record
}

/// Of a move's number all four functions, beside the Rust's and by the wrapper's type.
fn table(chance: &mut Chance, tally: &mut Tally) -> Compared<()> {
    let record = numbered(chance);
    let at = record.0[word::NODE] as usize;
    let kinds = Move::ALL.get(at).map(|&kind| (kind, rove::Move::ALL[at]));
    let call = called(record.clone(), exports::rove_initial_tuning);
    let answer = match kinds.map(|(kind, _)| kind.initial_tuning()) {
        Some(Some(tuning)) => is_float(&call, tuning),
        Some(None) => call.is(1, &answered(1, 0, 0, 0, 0)).map(|()| "declined"),
        None => call.is_refused(Refusal::Parameter(0)),
    };
    tally.also("initial_tuning", of("initial_tuning", answer)?, 1);
    if let Some((kind, typed)) = kinds {
        let same = typed.initial_tuning() == kind.initial_tuning();
        if !same || format!("{typed:?}") != format!("{kind:?}") {
            return Err(format!("{typed:?} by the wrapper, the Rust's {kind:?}"));
        }
    }
    for (name, call, rust, typed) in CHANGES {
        let call = called(record.clone(), call);
        let answer = match kinds {
            Some((kind, _)) => is_flag(&call, rust(kind)),
            None => call.is_refused(Refusal::Parameter(0)),
        };
        tally.also(name, of(name, answer)?, 1);
        if kinds.is_some_and(|(kind, of)| typed(of) != rust(kind)) {
            return Err(format!("{name} of {kinds:?} by the wrapper"));
        }
    }
    Ok(())
}

/// Of every move, and of one number, with the same priors.
fn estimates(chance: &mut Chance, tally: &mut Tally) -> Compared<()> {
    use scripted::mcmc::Move;
    let mut record = numbered(chance);
    set_priors(chance, &mut record);
    let any = record.0[word::NODE];
    for number in (0..25).chain([any]) {
        record.set(word::NODE, number);
        let call = called(record.clone(), exports::rove_estimates);
        let answer = match Move::ALL.get(number as usize) {
            Some(&kind) => is_flag(&call, priors(&record).estimates(kind)),
            None => call.is_refused(Refusal::Parameter(0)),
        };
        tally.also("estimates", answer?, 1);
    }
    Ok(())
}
