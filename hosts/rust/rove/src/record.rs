//! The record of a call: 32 words in which numbers go in and come out. Floats stand in it by their bits.

use crate::answer::{Answer, Moved, Proposal, Ratio, Refusal};

pub const WORDS: usize = 32;

/// The places of the words that every call shares. The generator has the first four, parameters 13 to 31.
pub mod word {
    pub const ROOT: usize = 4;
    pub const ALLOWANCE: usize = 5;
    pub const NODE: usize = 6;
    pub const TUNING: usize = 7;
    pub const ANSWER: usize = 8;
    pub const DRAWS: usize = 9;
    pub const KIND: usize = 10;
    pub const FIRST: usize = 11;
    pub const SECOND: usize = 12;
    pub const PARAMETERS: usize = 13;
}

#[derive(Clone, Debug, PartialEq, Eq)]
pub struct Record(pub [u64; WORDS]);

impl Record {
    pub fn empty() -> Self {
        Self([0; WORDS])
    }

    pub fn set(&mut self, place: usize, value: u64) {
        self.0[place] = value;
    }

    pub fn set_index(&mut self, place: usize, value: usize) {
        self.0[place] = value as u64;
    }

    pub fn set_float(&mut self, place: usize, value: f64) {
        self.0[place] = value.to_bits();
    }

    pub fn float(&self, place: usize) -> f64 {
        f64::from_bits(self.0[place])
    }

    /// The generator's words.
    pub fn state(&self) -> [u64; 4] {
        let [a, b, c, d, ..] = self.0;
        [a, b, c, d]
    }

    pub fn set_state(&mut self, state: [u64; 4]) {
        self.0[..4].copy_from_slice(&state);
    }

    /// The ratio of a moved call.
    ///
    /// # Panics
    /// Where the record's words are none that a call writes.
    #[inline]
    pub fn ratio(&self) -> Ratio {
        let (first, second) = (self.0[word::FIRST], self.0[word::SECOND]);
        match self.0[word::KIND] {
            0 => Ratio::Even,
            1 => Ratio::Counts(first, second),
            2 => Ratio::Lengths(f64::from_bits(first), f64::from_bits(second)),
            3 => Ratio::Power(f64::from_bits(first), second as i64),
            kind => not_written(kind),
        }
    }

    /// The refusal of a refused call.
    ///
    /// # Panics
    /// Where the record's words are none that a call writes.
    pub fn refusal(&self) -> Refusal {
        let number = self.0[word::KIND];
        Refusal::of(number, self.0[word::FIRST]).unwrap_or_else(|| not_written(number))
    }

    /// What a call on a tree answered, by the code that it returned.
    ///
    /// # Panics
    /// Where the record's words are none that a call writes.
    #[inline]
    pub fn answer(&self, code: u64) -> Answer {
        let draws = self.0[word::DRAWS];
        match code {
            0 => Answer::Moved(Moved { root: self.0[word::ROOT] as usize, draws, ratio: self.ratio() }),
            1 => Answer::Declined(draws),
            2 => Answer::Refused(self.refusal()),
            _ => not_written(code),
        }
    }

    /// What a call on parameters answered, by the code that it returned.
    ///
    /// # Panics
    /// Where the record's words are none that a call writes.
    pub fn proposal(&self, code: u64) -> Proposal {
        match self.answer(code) {
            Answer::Moved(moved) => Proposal::Scaled(moved.draws, moved.ratio),
            Answer::Declined(draws) => Proposal::Declined(draws),
            Answer::Refused(refusal) => Proposal::Refused(refusal),
        }
    }

    /// Whether a call that only checks found all in order.
    pub fn verdict(&self, code: u64) -> Result<(), Refusal> {
        if code == 2 { Err(self.refusal()) } else { Ok(()) }
    }
}

/// A word that no call writes at its place.
#[cold]
fn not_written(word: u64) -> ! {
    panic!("{word} is no code of an answer, no kind of ratio and no refusal's number")
}
