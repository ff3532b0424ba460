//! Chains of moves in memory: the same moves from the same seed on the Rust's tree and on the port's, which are compared
//! after each in every bit; and single calls on damaged trees and with parameters past their limits.

use crate::again::Again;
use crate::files;
use crate::oracle::{self, Call, Compared, Outcome, logarithm, rust_move};
use crate::plain::{
    children, draws, plain, port_tree, random, rust_tree, same_as_rust, same_float, same_tree, shown,
};
use crate::port::{self, Way};
use crate::ratio::Change;
use crate::tally::{Tally, refused};
use crate::wrong::{judged, wrong_tree};
use cases::{Chance, Kind, Sample, shapes};
use reference::random::Random;
use rove::{Answer, Refusal, Tree};

/// More than any call makes.
const MANY: u64 = 1 << 20;

/// So many moves in chains; beside them the same calls with a draw too few and with another allowance that is enough, and about
/// as many single calls as an eighth.
pub fn compare(count: u64, seed: u64) -> Compared<Tally> {
    let mut chance = Chance::new(seed);
    let mut again = Again::new(seed);
    let mut tally = Tally::new("moves", count);
    while tally.total() < count {
        let tips = shapes::tips(&mut chance);
        let mut chain = Chain::new(&mut chance, tips);
        for _ in 0..chance.pick(&[1, 10, 100, 400]) {
            let kind = chance.pick(&Kind::ALL);
            let answer = chain.step(&mut chance, &mut again, kind)?;
            tally.count(kind.name(), answer);
            if chance.once_in(8) {
                tally.also("single calls", single(&mut chance, &mut again)?, 1);
            }
            if tally.total() >= count || chain.overtaken(&mut chance)? {
                break;
            }
        }
        tally.also("one draw short", "6", chain.short);
    }
    again.tell(&mut tally);
    Ok(tally)
}

/// The Rust's tree and generator, and the port's, which are alike; and the port's tree before the last move.
struct Chain {
    rust: reference::tree::Tree,
    random: Random,
    port: Tree,
    before: Tree,
    /// The calls that were made with a draw too few.
    short: u64,
}

/// What a move on the Rust's side came to.
struct Made {
    log: Option<f64>,
    state: [u64; 4],
    draws: u64,
}

impl Chain {
    fn new(chance: &mut Chance, tips: usize) -> Self {
        let sample = Sample::tree(chance, tips);
        let state = loop {
            let state = chance.state();
            if state != [0; 4] {
                break state;
            }
        };
        let port = port_tree(&sample);
        Self { rust: rust_tree(&sample), random: random(state), before: port.clone(), port, short: 0 }
    }

    /// One move on both sides.
    fn step(&mut self, chance: &mut Chance, again: &mut Again, kind: Kind) -> Compared<&'static str> {
        self.before.clone_from(&self.port);
        let state = reference::state(&self.random);
        if kind == Kind::SubtreeSlide {
            return self.slide(chance, again, state);
        }
        let tuning = if kind.scales() { files::tuning(chance) } else { 0.0 };
        let made = self.rust_made(kind, tuning, state);
        let call = Call { kind, state, allowance: 0, node: 0, tuning };
        self.beside(chance, again, call, &made)
    }

    /// The Rust's move.
    fn rust_made(&mut self, kind: Kind, tuning: f64, before: [u64; 4]) -> Made {
        let log = reference::propose(rust_move(kind), &mut self.rust, tuning, &mut self.random);
        let state = reference::state(&self.random);
        Made { log, state, draws: draws(before, state, MANY).expect("a call's draws") }
    }

    /// The slide's two calls beside the Rust's one. The host forms the step.
    fn slide(&mut self, chance: &mut Chance, again: &mut Again, state: [u64; 4]) -> Compared<&'static str> {
        let size = self.size(chance);
        let mut made = self.rust_made(Kind::SubtreeSlide, size, state);
        let way = Way::any(chance);
        let (started, next) = port::slide_start(chance, way, &self.port, state, 65_535)?;
        let started = started.map_err(|why| self.report("slide_start", &format!("{why}")))?;
        let most = started.draws;
        if draws(state, next, most) != Some(most) || made.draws < most {
            return Err(self.report("slide_start", &format!("{started:?}, generator {next:x?}")));
        }
        if most > 1 && chance.once_in(4) {
            let (short, kept) = port::slide_start(chance, way, &self.port, state, most - 1)?;
            if short != Err(Refusal::Allowance(most - 1)) || kept != state {
                return Err(self.report("slide_start, one draw short", &format!("{short:?}")));
            }
            self.short += 1;
        }
        again.started(way, &self.port, state, started, next)?;
        made.draws -= most;
        let node = started.node as u64;
        let call =
            Call { kind: Kind::SubtreeSlide, state: next, allowance: 0, node, tuning: started.step(size) };
        self.beside(chance, again, call, &made)
    }

    /// A slide's size: a part of the tree's height, or one at the ends of the floats.
    fn size(&self, chance: &mut Chance) -> f64 {
        let top = self.rust.height(self.rust.root());
        match chance.below(12) {
            0 => chance.pick(&[0.0, 1.0, f64::MAX, 1e300, f64::from_bits(1), f64::from_bits(9)]),
            1 => top,
            2 => top * 1e-17,
            _ => top * 0.5 * chance.unit(),
        }
    }

    /// The port's call with the state, node and tuning given, and whether it did what the Rust has done.
    fn beside(
        &mut self,
        chance: &mut Chance,
        again: &mut Again,
        mut call: Call,
        made: &Made,
    ) -> Compared<&'static str> {
        let way = Way::any(chance);
        if made.draws > 1 && chance.once_in(4) {
            call.allowance = made.draws - 1;
            let (answer, kept) = port::call(chance, way, &call, &mut self.port)?;
            let right = answer == Answer::Refused(Refusal::Allowance(call.allowance));
            if !right || kept != call.state || !same_tree(&self.port, &self.before) {
                return Err(self.report(&format!("{:?}, one draw short", call.kind), &format!("{answer:?}")));
            }
            self.short += 1;
        }
        call.allowance = chance.pick(&[made.draws.max(1), made.draws + 1, 65_535, 65_535]);
        let (answer, given) = port::call(chance, way, &call, &mut self.port)?;
        let expected = self.expected(&call, made);
        again.moved(way, &call, &self.before, (answer, given, &self.port))?;
        let found = self.judged(chance, &call, made, answer, given, expected);
        found.map_err(|what| {
            let state = call.state.map(|word| format!("{word:016x}"));
            let told = format!(
                "{way:?}, state {state:?}, allowance {}, node {}, tuning {:016x}",
                call.allowance,
                call.node,
                call.tuning.to_bits()
            );
            self.report(
                &format!("{:?}: {what}; {told}", call.kind),
                &format!("{answer:?}, generator {:x?}", given),
            )
        })
    }

    /// The refusal that the Rust does not have: a step or a new height that is not finite.
    fn expected(&self, call: &Call, made: &Made) -> Option<Refusal> {
        if call.kind == Kind::SubtreeSlide && !call.tuning.is_finite() {
            return Some(Refusal::Parameter(0));
        }
        if made.log.is_none() || !call.kind.uses_tuning() {
            return None;
        }
        let infinite = |&node: &usize| !self.rust.height(node).is_finite();
        (0..self.rust.nodes()).find(infinite).map(|node| Refusal::NotFinite(node as u64))
    }

    fn judged(
        &mut self,
        chance: &mut Chance,
        call: &Call,
        made: &Made,
        answer: Answer,
        given: [u64; 4],
        expected: Option<Refusal>,
    ) -> Result<&'static str, &'static str> {
        if let Some(why) = expected {
            if answer != Answer::Refused(why) || given != call.state || !same_tree(&self.port, &self.before) {
                return Err("this should be refused and change nothing");
            }
            self.restore(call.state);
            return Ok(refused(why.number()));
        }
        if given != made.state {
            return Err("the generators differ");
        }
        if !same_as_rust(&self.port, &self.rust) {
            return Err("the trees differ");
        }
        match (answer, made.log) {
            (Answer::Declined(draws), None) if draws == made.draws => Ok("declined"),
            (Answer::Moved(moved), Some(log))
                if moved.draws == made.draws && moved.root == self.rust.root() =>
            {
                if !same_float(log, logarithm(moved.ratio, call.kind, call.tuning)) {
                    return Err("the logarithms differ");
                }
                if chance.once_in(4) && moved.ratio != self.change(call).ratio() {
                    return Err("the ratio is not document 01's");
                }
                Ok("moved")
            }
            _ => Err("the answers differ"),
        }
    }

    fn change<'a>(&'a self, call: &Call) -> Change<'a> {
        let (before, after) = (&self.before, &self.port);
        Change {
            kind: call.kind,
            state: call.state,
            node: call.node as usize,
            tuning: call.tuning,
            before,
            after,
        }
    }

    /// Puts the Rust's side back to where the port's is.
    fn restore(&mut self, state: [u64; 4]) {
        let heights = self.port.heights.clone();
        self.rust = reference::tree::Tree::new(children(&self.port.pairs), heights).expect("the tree before");
        self.random = random(state);
    }

    /// Whether a scale has left a dated tip above its parent; the next call is then refused with 4.
    fn overtaken(&self, chance: &mut Chance) -> Compared<bool> {
        let above =
            |&tip: &usize| self.rust.parent(tip).is_some_and(|p| self.rust.height(tip) > self.rust.height(p));
        let Some(tip) = (0..self.rust.tips()).find(above) else {
            return Ok(false);
        };
        let kind = chance.pick(&Kind::ALL);
        let call = Call { kind, state: chance.state(), allowance: 65_535, node: 0, tuning: 0.5 };
        let mut tree = self.port.clone();
        let (answer, given) = port::call(chance, Way::CHECKED, &call, &mut tree)?;
        let right = answer == Answer::Refused(Refusal::Height(tip as u64));
        if right && given == call.state && same_tree(&tree, &self.port) {
            return Ok(true);
        }
        Err(self.report("a tip above its parent should be refused with 4", &format!("{answer:?}")))
    }

    /// A difference in full.
    fn report(&self, what: &str, answer: &str) -> String {
        let rust = plain(&self.rust);
        let state = reference::state(&self.random);
        format!(
            "the moves differ: {what}\nbefore: {}\nthe Rust: generator {:x?}, {}\nthe port: {answer}, {}",
            shown(&self.before),
            state,
            shown(&rust),
            shown(&self.port)
        )
    }
}

/// A call on a tree that may be damaged, with parameters that may be past their limits.
fn single(chance: &mut Chance, again: &mut Again) -> Compared<&'static str> {
    let mut tree = wrong_tree(chance);
    let call = wrong_call(chance, &tree);
    let before = tree.clone();
    let (answer, given) = port::call(chance, Way::CHECKED, &call, &mut tree)?;
    let expected = outcome(&call, &before)?;
    let right = match (&expected, answer) {
        (Outcome::Refused(why), Answer::Refused(refusal)) => {
            *why == refusal && given == call.state && same_tree(&tree, &before)
        }
        (Outcome::Declined { draws, state }, Answer::Declined(made)) => {
            *draws == made && given == *state && same_tree(&tree, &before)
        }
        (Outcome::Moved { draws, state, ratio, tree: after }, Answer::Moved(moved)) => {
            *draws == moved.draws && given == *state && *ratio == moved.ratio && same_tree(&tree, after)
        }
        _ => false,
    };
    if !right {
        let expected = String::from_utf8(oracle::printed(&expected)).expect("text");
        return Err(format!(
            "a single call differs: {:?}, state {:x?}, allowance {}, node {}, tuning {:016x}\nbefore: {}\nexpected:\n{expected}the port: {answer:?}, generator {:x?}, {}",
            call.kind,
            call.state,
            call.allowance,
            call.node,
            call.tuning.to_bits(),
            shown(&before),
            given,
            shown(&tree)
        ));
    }
    again.moved(Way::CHECKED, &call, &before, (answer, given, &tree))?;
    Ok(word_of(answer))
}

fn word_of(answer: Answer) -> &'static str {
    match answer {
        Answer::Moved(_) => "moved",
        Answer::Declined(_) => "declined",
        Answer::Refused(why) => refused(why.number()),
    }
}

fn wrong_call(chance: &mut Chance, tree: &Tree) -> Call {
    let kind = chance.pick(&Kind::ALL);
    let nodes = tree.nodes() as u64;
    let any = if nodes == 0 { 0 } else { chance.below(nodes as usize) as u64 };
    let node = if chance.once_in(6) {
        chance.pick(&[nodes, tree.root as u64, 65_535, u64::MAX, 1 << 32])
    } else {
        any
    };
    let tuning = match (kind, chance.below(6)) {
        (_, 0) => chance.float(),
        (Kind::SubtreeSlide, _) => 2.0 * chance.unit() - 1.0,
        _ => files::tuning(chance),
    };
    let allowance = if chance.once_in(6) {
        chance.pick(&[0, 1, 2, 65_535, 65_536, u64::MAX, (1 << 32) + 1])
    } else {
        65_535
    };
    let state = if chance.once_in(16) { [0; 4] } else { chance.state() };
    Call { kind, state, allowance, node, tuning }
}

/// What a call should come to, on any slices.
fn outcome(call: &Call, tree: &Tree) -> Compared<Outcome> {
    let rust = match judged(tree) {
        Ok(rust) => rust,
        Err(why) => return Ok(Outcome::Refused(why)),
    };
    if !oracle::limits(call, tree.nodes() as u64, tree.root as u64) {
        return Ok(Outcome::Refused(Refusal::Parameter(0)));
    }
    oracle::run(call, tree, rust)
}
