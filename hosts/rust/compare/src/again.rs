//! Request S-5: calls made once more with another allowance. A call that was not refused with 6 leaves the same with any
//! larger allowance, so that two allowances which are both enough cannot be told by what is left, the record's own word apart.

use crate::oracle::{Call, Compared};
use crate::plain::{same_tree, shown};
use crate::port::{self, Way};
use crate::tally::Tally;
use crate::trees::{Called, called};
use cases::Chance;
use rove::{Answer, Record, Refusal, Started, Tree, word};

/// The largest allowance.
const MOST: u64 = 65_535;

/// How a call ended, as far as other allowances go.
#[derive(Clone, Copy)]
pub enum Ended {
    /// With so many draws.
    Drawn(u64),
    Refused(Refusal),
}

impl From<Answer> for Ended {
    fn from(answer: Answer) -> Self {
        match answer {
            Answer::Moved(moved) => Self::Drawn(moved.draws),
            Answer::Declined(draws) => Self::Drawn(draws),
            Answer::Refused(why) => Self::Refused(why),
        }
    }
}

impl Ended {
    fn of(call: &Called) -> Self {
        match call.code {
            2 => Self::Refused(call.after.refusal()),
            _ => Self::Drawn(call.after.0[word::DRAWS]),
        }
    }

    /// The least allowance that is known to have been enough, of a call with the allowance given; none where it was not.
    fn enough(self, given: u64) -> Option<u64> {
        if !(1..=MOST).contains(&given) {
            return None;
        }
        match self {
            Self::Drawn(draws) => Some(draws.max(1)),
            Self::Refused(Refusal::Allowance(_)) => None,
            Self::Refused(Refusal::NotFinite(_) | Refusal::Outside(_)) => Some(given),
            Self::Refused(_) => Some(1),
        }
    }
}

/// Which calls are made again, by a chance of their own, and how many were.
pub struct Again {
    chance: Chance,
    larger: u64,
    smaller: u64,
}

impl Again {
    pub fn new(seed: u64) -> Self {
        Self { chance: Chance::new(seed.rotate_left(32)), larger: 0, smaller: 0 }
    }

    /// For one call in four of those that another allowance leaves as they are: the other allowance.
    pub fn allowance(&mut self, given: u64, ended: Ended) -> Option<u64> {
        let enough = ended.enough(given)?;
        let any = self.chance.between(enough as usize, MOST as usize) as u64;
        let other = self.chance.pick(&[enough, given + 1, MOST, any]).min(MOST);
        if other == given || !self.chance.once_in(4) {
            return None;
        }
        let count = if other > given { &mut self.larger } else { &mut self.smaller };
        *count += 1;
        Some(other)
    }

    /// Makes a call with a record, at times once more with another allowance; it has to leave the same words but that one.
    /// The first of the two calls is given back, and what the last has left in slices stays there.
    pub fn called(&mut self, record: Record, mut call: impl FnMut(&mut [u64]) -> u64) -> Compared<Called> {
        let first = called(record, &mut call);
        let Some(other) = self.allowance(first.before.0[word::ALLOWANCE], Ended::of(&first)) else {
            return Ok(first);
        };
        let with = |record: &Record| {
            let mut record = record.clone();
            record.set(word::ALLOWANCE, other);
            record
        };
        let second = called(with(&first.before), call);
        if second.code == first.code && second.after == with(&first.after) {
            return Ok(first);
        }
        Err(format!(
            "the allowance {other} makes a difference\nbefore: {:x?}\nleft: {}, {:x?}\nwith {other}: {}, {:x?}",
            first.before.0, first.code, first.after.0, second.code, second.after.0
        ))
    }

    /// That a move, made once more from the tree before it, answers, steps the generator and leaves a tree as it did.
    pub fn moved(
        &mut self,
        way: Way,
        call: &Call,
        before: &Tree,
        made: (Answer, [u64; 4], &Tree),
    ) -> Compared<()> {
        let (answer, state, after) = made;
        let Some(other) = self.allowance(call.allowance, answer.into()) else {
            return Ok(());
        };
        let mut tree = before.clone();
        let call = Call { allowance: other, ..call.clone() };
        let (same, stepped) = port::call(&mut self.chance, way, &call, &mut tree)?;
        if same == answer && stepped == state && same_tree(&tree, after) {
            return Ok(());
        }
        Err(format!(
            "the moves differ: {way:?}, the allowance {other} makes a difference to {:?} from {:x?}, node {}, tuning {:016x}\nbefore: {}\nleft: \
             {answer:?}, generator {state:x?}, {}\nwith {other}: {same:?}, generator {stepped:x?}, {}",
            call.kind,
            call.state,
            call.node,
            call.tuning.to_bits(),
            shown(before),
            shown(after),
            shown(&tree)
        ))
    }

    /// The same of a slide's first call, which was made with the largest allowance.
    pub fn started(
        &mut self,
        way: Way,
        tree: &Tree,
        from: [u64; 4],
        started: Started,
        state: [u64; 4],
    ) -> Compared<()> {
        let Some(other) = self.allowance(MOST, Ended::Drawn(started.draws)) else {
            return Ok(());
        };
        let (same, stepped) = port::slide_start(&mut self.chance, way, tree, from, other)?;
        if same == Ok(started) && stepped == state {
            return Ok(());
        }
        Err(format!(
            "the moves differ: {way:?}, the allowance {other} makes a difference to a slide's first call from {from:x?} on {}\nleft: {started:?}, \
             generator {state:x?}\nwith {other}: {same:?}, generator {stepped:x?}",
            shown(tree)
        ))
    }

    /// Puts the counts into a tally.
    pub fn tell(&self, tally: &mut Tally) {
        tally.also("again", "with a larger allowance", self.larger);
        tally.also("again", "with a smaller one that is enough", self.smaller);
    }
}
