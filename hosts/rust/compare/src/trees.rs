//! The generator's own calls, and `new`, `validate` and `postorder` on trees that may be damaged.

use crate::again::Again;
use crate::oracle::{self, Compared, allowed};
use crate::plain::{children, draws, mark, random, shown};
use crate::port::noisy;
use crate::tally::{Tally, refused};
use crate::values;
use crate::wrong::{judged, wrong_tree};
use cases::Chance;
use reference::random::Random;
use rove::{Generator, Record, Refusal, Tree, exports, word};

type Trial = fn(&mut Chance, &mut Again) -> Compared<&'static str>;

const TRIALS: [(&str, Trial); 6] = [
    ("seed", |chance, _| seed(chance)),
    ("next_u64", |chance, _| next_u64(chance)),
    ("below", below),
    ("new", |chance, _| new(chance)),
    ("validate", |chance, _| validate(chance)),
    ("postorder", |chance, _| postorder(chance)),
];

/// So many calls, some made again; beside each one of the trials of single values.
pub fn compare(count: u64, seed: u64) -> Compared<Tally> {
    let mut chance = Chance::new(seed);
    let mut other = Chance::new(!seed);
    let mut again = Again::new(seed);
    let mut tally = Tally::new("trees", count);
    while tally.total() < count {
        let (name, trial) = chance.pick(&TRIALS);
        let answer = trial(&mut chance, &mut again).map_err(|fault| format!("{name} differs: {fault}"))?;
        tally.count(name, answer);
        values::beside(&values::OF_TREES, &mut other, &mut tally)?;
    }
    again.tell(&mut tally);
    Ok(tally)
}

/// A record before a call and after it.
pub struct Called {
    pub code: u64,
    pub before: Record,
    pub after: Record,
}

/// Makes a call with a record, and keeps the record as it was.
pub fn called(mut record: Record, call: impl FnOnce(&mut [u64]) -> u64) -> Called {
    let before = record.clone();
    let code = call(&mut record.0);
    Called { code, before, after: record }
}

impl Called {
    /// That the call returned a code and left, of the record as it was, these words changed.
    pub fn is(&self, code: u64, words: &[(usize, u64)]) -> Compared<()> {
        let mut expected = self.before.clone();
        for &(place, value) in words {
            expected.set(place, value);
        }
        if self.code == code && self.after == expected {
            return Ok(());
        }
        Err(format!(
            "\nbefore: {:x?}\nexpected: {code}, {:x?}\nthe port: {}, {:x?}",
            self.before.0, expected.0, self.code, self.after.0
        ))
    }

    /// That it was refused.
    pub fn is_refused(&self, why: Refusal) -> Compared<&'static str> {
        self.is(2, &answered(2, 0, why.number(), why.detail(), 0))?;
        Ok(refused(why.number()))
    }
}

/// The words that every answer has.
pub fn answered(code: u64, draws: u64, kind: u64, first: u64, second: u64) -> [(usize, u64); 5] {
    [
        (word::ANSWER, code),
        (word::DRAWS, draws),
        (word::KIND, kind),
        (word::FIRST, first),
        (word::SECOND, second),
    ]
}

/// The words of a generator.
pub fn stepped(state: [u64; 4]) -> [(usize, u64); 4] {
    [(0, state[0]), (1, state[1]), (2, state[2]), (3, state[3])]
}

fn seed(chance: &mut Chance) -> Compared<&'static str> {
    let seed = chance.pick(&[0, 1, u64::MAX, chance.clone().word()]);
    chance.word();
    let expected = reference::state(&Random::new(seed));
    let call = called(Record(chance.words()), |words| exports::rove_seed(seed, words));
    call.is(0, &stepped(expected))?;
    if Generator::new(seed).state() == expected {
        Ok("given")
    } else {
        Err(format!("seed {seed} by the wrapper"))
    }
}

/// A generator's words that are not all zero.
pub fn state(chance: &mut Chance) -> [u64; 4] {
    loop {
        let state = chance.state();
        if state != [0; 4] {
            return state;
        }
    }
}

fn next_u64(chance: &mut Chance) -> Compared<&'static str> {
    let state = state(chance);
    let mut rust = random(state);
    let drawn = rust.next_u64();
    let call = called(noisy(chance, state, 0, 0), exports::rove_next_u64);
    let words = [&stepped(reference::state(&rust))[..], &answered(0, 1, 0, drawn, 0)].concat();
    call.is(0, &words)?;
    Ok("given")
}

fn below(chance: &mut Chance, again: &mut Again) -> Compared<&'static str> {
    let state = state(chance);
    let any = chance.word();
    let n = chance.pick(&[
        0,
        1,
        2,
        3,
        4095,
        1 << 31,
        (1 << 32) - 1,
        1 << 32,
        (1 << 32) + 1,
        u64::MAX,
        any >> 32,
        any >> 53,
    ]);
    let allowance = chance.pick(&[0, 1, 2, 3, 65_535, 65_535, 65_536, u64::MAX]);
    let mut record = noisy(chance, state, 0, allowance);
    record.set(word::NODE, n);
    let call = again.called(record, exports::rove_below)?;
    if !(1..=1 << 32).contains(&n) || !allowed(allowance) {
        return call.is_refused(Refusal::Parameter(0));
    }
    let mut rust = random(state);
    let number = rust.below(n as usize);
    let after = reference::state(&rust);
    let Some(draws) = draws(state, after, allowance) else {
        return call.is_refused(Refusal::Allowance(allowance));
    };
    call.is(0, &[&stepped(after)[..], &answered(0, draws, 0, number as u64, 0)].concat())?;
    Ok("given")
}

fn new(chance: &mut Chance) -> Compared<&'static str> {
    let tree = wrong_tree(chance);
    let noise: Vec<u16> = tree.parents.iter().map(|_| chance.word() as u16).collect();
    let mut parents = noise.clone();
    let record = Record(chance.words());
    let call = called(record, |words| exports::rove_new(&tree.pairs, &tree.heights, &mut parents, words));
    let told = |fault: String| format!("{}{fault}", shown(&tree));
    match made(&tree) {
        Err(why) if parents == noise => call.is_refused(why).map_err(told),
        Ok(rust) if parents.iter().enumerate().all(|(k, &parent)| parent == mark(rust.parent(k))) => {
            let words = [&[(word::ROOT, rust.root() as u64)][..], &answered(0, 0, 0, 0, 0)].concat();
            call.is(0, &words).map_err(told).map(|()| "given")
        }
        _ => Err(told(format!(", given {}, parents {parents:?}", call.code))),
    }
}

/// What `Tree::new` makes of pairs and heights, with places for as many parents.
fn made(tree: &Tree) -> Result<reference::tree::Tree, Refusal> {
    let nodes = tree.nodes();
    if nodes > 4095 || tree.pairs.len() % 2 == 1 || tree.parents.len() != nodes {
        return Err(Refusal::Size(nodes as u64));
    }
    reference::tree::Tree::new(children(&tree.pairs), tree.heights.clone()).map_err(oracle::refusal)
}

fn validate(chance: &mut Chance) -> Compared<&'static str> {
    let tree = wrong_tree(chance);
    let record = noisy(chance, [0; 4], tree.root, 0);
    let call =
        called(record, |words| exports::rove_validate(&tree.pairs, &tree.parents, &tree.heights, words));
    let result = match judged(&tree) {
        Err(why) => call.is_refused(why),
        Ok(_) => call.is(0, &answered(0, 0, 0, 0, 0)).map(|()| "given"),
    };
    result.map_err(|fault| format!("{}{fault}", shown(&tree)))
}

fn postorder(chance: &mut Chance) -> Compared<&'static str> {
    let tree = wrong_tree(chance);
    let places = if chance.once_in(8) { chance.below(12) } else { tree.nodes() };
    let noise: Vec<u16> = (0..places).map(|_| chance.word() as u16).collect();
    let mut order = noise.clone();
    let record = noisy(chance, [0; 4], tree.root, 0);
    let call = called(record, |words| {
        exports::rove_postorder(&tree.pairs, &tree.parents, &tree.heights, &mut order, words)
    });
    let told = |fault: String| format!("{}, {places} places{fault}", shown(&tree));
    let judged = if places == tree.nodes() { judged(&tree) } else { Err(Refusal::Size(tree.nodes() as u64)) };
    match judged {
        Err(why) if order == noise => call.is_refused(why).map_err(told),
        Ok(rust) if rust.postorder().into_iter().eq(order.iter().map(|&node| usize::from(node))) => {
            call.is(0, &answered(0, 0, 0, 0, 0)).map_err(told).map(|()| "given")
        }
        _ => Err(told(format!(", given {}, order {order:?}", call.code))),
    }
}
