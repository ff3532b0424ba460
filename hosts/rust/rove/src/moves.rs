//! The table of moves, and the factor of a scale.

use crate::exports;
use crate::record::{Record, word};

/// The enum of the moves and the list of all, in one order.
macro_rules! moves {
    ($($name:ident),*) => {
        /// rove's moves, ported or not, in the Rust's order, by which they have their numbers.
        #[derive(Clone, Copy, Debug, PartialEq, Eq, Hash)]
        pub enum Move {
            $($name),*
        }

        impl Move {
            pub const ALL: [Self; 25] = [$(Self::$name),*];
        }
    };
}

moves! {
    FbdBirthScale,
    FbdDeathScale,
    FbdSamplingScale,
    FbdRhoLogit,
    FbdOriginScale,
    TipAge,
    ClockRateScale,
    NodeHeight,
    SubtreeSlide,
    NarrowExchange,
    WideExchange,
    WilsonBalding,
    RootScale,
    TreeScale,
    BirthDifferenceScale,
    RelativeDeathScale,
    GammaShapeScale,
    ClockSigmaScale,
    BranchRateScale,
    NodeTimeRates,
    RootTimeRates,
    ClockSigmaRates,
    NarrowExchangeRates,
    BirthRateScale,
    MorphologyRateScale
}

impl Move {
    /// The slide's size or the scale's tuning to start with, for the moves that have one.
    pub fn initial_tuning(self) -> Option<f64> {
        let mut record = self.record();
        let code = exports::rove_initial_tuning(&mut record.0);
        (code == 0).then(|| record.float(word::FIRST))
    }

    /// Whether it changes the fossilized birth–death process.
    pub fn changes_fbd(self) -> bool {
        self.holds(exports::rove_changes_fbd)
    }

    /// Whether it changes the tree, its heights or its shape.
    pub fn changes_tree(self) -> bool {
        self.holds(exports::rove_changes_tree)
    }

    /// Whether it changes the tree's shape.
    pub fn changes_topology(self) -> bool {
        self.holds(exports::rove_changes_topology)
    }

    /// A record with the move's number.
    pub(crate) fn record(self) -> Record {
        let mut record = Record::empty();
        record.set(word::NODE, self as u64);
        record
    }

    fn holds(self, call: fn(&mut [u64]) -> u64) -> bool {
        let mut record = self.record();
        call(&mut record.0);
        record.0[word::FIRST] != 0
    }
}

/// The factor of a scale with tuning s and uniform u: s + u·(1/s − s).
pub fn scaler(tuning: f64, uniform: f64) -> f64 {
    let mut record = Record::empty();
    record.set_float(word::TUNING, tuning);
    record.set_float(word::PARAMETERS, uniform);
    exports::rove_scaler(&mut record.0);
    record.float(word::FIRST)
}
