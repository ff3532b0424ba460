//! The generator and its draws.

use crate::answer::Refusal;
use crate::exports;
use crate::record::{Record, word};

/// xoshiro256++ by its four words, which stay from call to call in the record of the calls that draw from it.
#[derive(Clone, Debug)]
pub struct Generator {
    record: Record,
}

/// A number, and the draws that it took.
#[derive(Clone, Copy, Debug, PartialEq, Eq)]
pub struct Drawn {
    pub number: u64,
    pub draws: u64,
}

impl Generator {
    /// The generator of a seed, by SplitMix64.
    pub fn new(seed: u64) -> Self {
        let mut record = Record::empty();
        exports::rove_seed(seed, &mut record.0);
        Self { record }
    }

    /// The generator of four words.
    pub fn from_state(state: [u64; 4]) -> Self {
        let mut record = Record::empty();
        record.set_state(state);
        Self { record }
    }

    pub fn state(&self) -> [u64; 4] {
        self.record.state()
    }

    /// The next draw.
    pub fn next_u64(&mut self) -> u64 {
        exports::rove_next_u64(&mut self.record.0);
        self.record.0[word::FIRST]
    }

    /// The next draw, as a float on [0, 1).
    pub fn uniform(&mut self) -> f64 {
        exports::rove_uniform(&mut self.record.0);
        self.record.float(word::FIRST)
    }

    /// The next draw, as a side, true being the first.
    pub fn coin(&mut self) -> bool {
        exports::rove_coin(&mut self.record.0);
        self.record.0[word::FIRST] != 0
    }

    /// A number below `n`.
    pub fn below(&mut self, n: u64, allowance: u64) -> Result<Drawn, Refusal> {
        let record = self.allowed(allowance);
        record.set(word::NODE, n);
        let code = exports::rove_below(&mut record.0);
        record.verdict(code)?;
        Ok(Drawn { number: record.0[word::FIRST], draws: record.0[word::DRAWS] })
    }

    /// The record of the next call, which may draw so often.
    #[inline]
    pub(crate) fn allowed(&mut self, allowance: u64) -> &mut Record {
        self.record.set(word::ALLOWANCE, allowance);
        &mut self.record
    }
}

impl PartialEq for Generator {
    fn eq(&self, other: &Self) -> bool {
        self.state() == other.state()
    }
}

impl Eq for Generator {}
