//! Parameters and the calls that change them: the clock, speciation, the fossilized birth–death process and the age table.

use crate::answer::{Proposal, Refusal};
use crate::exports;
use crate::generator::Generator;
use crate::moves::Move;
use crate::record::{Record, word};

const AT: usize = word::PARAMETERS;

/// Where a process and its priors stand in the record.
const PROCESS: usize = AT;
const PRIORS: usize = 18;
const OFFSET: usize = 29;

/// Speciation by Yule's one rate, or by the two of a birth–death process.
#[derive(Clone, Copy, Debug, PartialEq)]
pub enum Speciation {
    Yule { birth_rate: f64 },
    BirthDeath { birth_difference: f64, relative_death: f64 },
}

/// The relaxed clock: its standard deviation, and one rate per node but the root.
#[derive(Clone, Debug, PartialEq)]
pub struct Clock {
    pub sigma: f64,
    pub rates: Vec<f64>,
}

/// The fossilized birth–death process.
#[derive(Clone, Copy, Debug, PartialEq)]
pub struct Process {
    pub birth: f64,
    pub death: f64,
    pub fossil_sampling: f64,
    pub present_sampling: f64,
    pub origin: f64,
}

/// Its priors; a parameter without one is not estimated.
#[derive(Clone, Copy, Debug, Default, PartialEq)]
pub struct Priors {
    pub birth_rate_mean: Option<f64>,
    pub death_rate_mean: Option<f64>,
    pub fossil_sampling_rate_mean: Option<f64>,
    pub present_sampling_beta: Option<(f64, f64)>,
    pub origin_excess_mean: Option<f64>,
}

/// The fields of a process that have a plain scale.
#[derive(Clone, Copy, Debug, PartialEq, Eq)]
pub enum Field {
    Birth,
    Death,
    FossilSampling,
    Origin,
}

/// The age table: the least and the greatest age of each tip.
#[derive(Clone, Debug, PartialEq)]
pub struct Ages {
    pub minima: Vec<f64>,
    pub maxima: Vec<f64>,
}

/// The Yule density by its terms.
#[derive(Clone, Copy, Debug, PartialEq)]
pub enum Density {
    Terms {
        /// The number of tips less 1.
        power: u64,
        rate: f64,
        /// The rate times the total of the heights, the root's counted twice.
        product: f64,
    },
    MinusInfinity,
}

impl Density {
    pub(crate) fn of(code: u64, record: &Record) -> Self {
        if code == 1 {
            return Self::MinusInfinity;
        }
        Self::Terms {
            power: record.0[word::FIRST],
            rate: record.float(AT + 1),
            product: record.float(AT + 2),
        }
    }

    /// The density's logarithm.
    pub fn ln(self) -> f64 {
        match self {
            Self::Terms { power, rate, product } => power as f64 * rate.ln() - product,
            Self::MinusInfinity => f64::NEG_INFINITY,
        }
    }
}

impl Process {
    pub(crate) fn put(&self, record: &mut Record) {
        let fields = [self.birth, self.death, self.fossil_sampling, self.present_sampling, self.origin];
        for (i, field) in fields.into_iter().enumerate() {
            record.set_float(PROCESS + i, field);
        }
    }

    fn take(&mut self, record: &Record) {
        self.birth = record.float(PROCESS);
        self.death = record.float(PROCESS + 1);
        self.fossil_sampling = record.float(PROCESS + 2);
        self.present_sampling = record.float(PROCESS + 3);
        self.origin = record.float(PROCESS + 4);
    }
}

impl Ages {
    /// Whether these are the ages of a tree of so many nodes, under the process; else the lowest tip at fault is named.
    pub fn validate(&self, nodes: usize, process: &Process) -> Result<(), Refusal> {
        let mut record = Record::empty();
        record.set_index(word::NODE, nodes);
        process.put(&mut record);
        let code = exports::rove_validate_ages(&self.minima, &self.maxima, &mut record.0);
        record.verdict(code)
    }
}

impl Priors {
    fn put(&self, record: &mut Record) {
        put_optional(record, PRIORS, self.birth_rate_mean);
        put_optional(record, PRIORS + 2, self.death_rate_mean);
        put_optional(record, PRIORS + 4, self.fossil_sampling_rate_mean);
        put_optional(record, PRIORS + 6, self.present_sampling_beta.map(|(a, _)| a));
        record.set_float(PRIORS + 8, self.present_sampling_beta.map_or(0.0, |(_, b)| b));
        put_optional(record, PRIORS + 9, self.origin_excess_mean);
    }

    /// Whether these are priors: one at least, positive finite means, and beta shapes from 0.001 to 1000.
    pub fn validate(&self) -> Result<(), Refusal> {
        let mut record = Record::empty();
        self.put(&mut record);
        let code = exports::rove_validate_priors(&mut record.0);
        record.verdict(code)
    }

    /// Whether the parameter that a move changes has a prior.
    pub fn estimates(&self, kind: Move) -> bool {
        let mut record = kind.record();
        self.put(&mut record);
        exports::rove_estimates(&mut record.0);
        record.0[word::FIRST] != 0
    }
}

/// A flag, and the value after it.
fn put_optional(record: &mut Record, place: usize, value: Option<f64>) {
    record.set(place, u64::from(value.is_some()));
    record.set_float(place + 1, value.unwrap_or(0.0));
}

/// The record of a call with a tuning, which may draw so often.
fn scaling(tuning: f64, generator: &mut Generator, allowance: u64) -> &mut Record {
    let record = generator.allowed(allowance);
    record.set_float(word::TUNING, tuning);
    record
}

/// Scales a value between 0 and an upper end.
pub fn scale(
    value: &mut f64,
    upper: f64,
    tuning: f64,
    generator: &mut Generator,
    allowance: u64,
) -> Proposal {
    let record = scaling(tuning, generator, allowance);
    record.set_float(AT, *value);
    record.set_float(AT + 1, upper);
    let code = exports::rove_scale(&mut record.0);
    *value = record.float(AT);
    record.proposal(code)
}

/// Scales the mean rate of the clock, which may be missing.
pub fn clock_rate_scale(
    mean: &mut Option<f64>,
    tuning: f64,
    generator: &mut Generator,
    allowance: u64,
) -> Proposal {
    let record = scaling(tuning, generator, allowance);
    put_optional(record, AT, *mean);
    let code = exports::rove_clock_rate_scale(&mut record.0);
    *mean = mean.map(|_| record.float(AT + 1));
    record.proposal(code)
}

/// Scales the difference of a birth–death process's rates.
pub fn birth_difference_scale(
    speciation: &mut Speciation,
    upper: f64,
    tuning: f64,
    generator: &mut Generator,
    allowance: u64,
) -> Proposal {
    let record = scaling(tuning, generator, allowance);
    speciate(exports::rove_birth_difference_scale, speciation, upper, record)
}

/// Scales the rate of a Yule process.
pub fn birth_rate_scale(
    speciation: &mut Speciation,
    upper: f64,
    tuning: f64,
    generator: &mut Generator,
    allowance: u64,
) -> Proposal {
    let record = scaling(tuning, generator, allowance);
    speciate(exports::rove_birth_rate_scale, speciation, upper, record)
}

/// Scales the relative death rate of a birth–death process, up to 1.
pub fn relative_death_scale(
    speciation: &mut Speciation,
    tuning: f64,
    generator: &mut Generator,
    allowance: u64,
) -> Proposal {
    let record = scaling(tuning, generator, allowance);
    speciate(exports::rove_relative_death_scale, speciation, 0.0, record)
}

/// A call with a speciation state and an upper end in its record.
fn speciate(
    call: fn(&mut [u64]) -> u64,
    speciation: &mut Speciation,
    upper: f64,
    record: &mut Record,
) -> Proposal {
    match *speciation {
        Speciation::Yule { birth_rate } => {
            record.set(AT, 0);
            record.set_float(AT + 1, birth_rate);
        }
        Speciation::BirthDeath { birth_difference, relative_death } => {
            record.set(AT, 1);
            record.set_float(AT + 1, birth_difference);
            record.set_float(AT + 2, relative_death);
        }
    }
    record.set_float(AT + 3, upper);
    let code = call(&mut record.0);
    match speciation {
        Speciation::Yule { birth_rate } => *birth_rate = record.float(AT + 1),
        Speciation::BirthDeath { birth_difference, relative_death } => {
            *birth_difference = record.float(AT + 1);
            *relative_death = record.float(AT + 2);
        }
    }
    record.proposal(code)
}

/// Scales the clock's standard deviation; without a clock it declines.
pub fn clock_sigma_scale(
    clock: Option<&mut Clock>,
    tuning: f64,
    generator: &mut Generator,
    allowance: u64,
) -> Proposal {
    let record = scaling(tuning, generator, allowance);
    put_optional(record, AT, clock.as_ref().map(|clock| clock.sigma));
    let code = match clock {
        None => exports::rove_clock_sigma_scale(&[], &mut record.0),
        Some(clock) => {
            let code = exports::rove_clock_sigma_scale(&clock.rates, &mut record.0);
            clock.sigma = record.float(AT + 1);
            code
        }
    };
    record.proposal(code)
}

/// Scales one of the clock's rates; without a clock it declines.
pub fn branch_rate_scale(
    clock: Option<&mut Clock>,
    tuning: f64,
    generator: &mut Generator,
    allowance: u64,
) -> Proposal {
    let record = scaling(tuning, generator, allowance);
    put_optional(record, AT, clock.as_ref().map(|clock| clock.sigma));
    let rates: &mut [f64] = clock.map_or(&mut [], |clock| &mut clock.rates);
    let code = exports::rove_branch_rate_scale(rates, &mut record.0);
    record.proposal(code)
}

/// Scales a field of a process, where it is estimated; the origin above the offset.
pub fn fbd_scale(
    field: Field,
    priors: &Priors,
    process: &mut Process,
    offset: f64,
    tuning: f64,
    generator: &mut Generator,
    allowance: u64,
) -> Proposal {
    let record = scaling(tuning, generator, allowance);
    record.set(word::NODE, field as u64);
    process.put(record);
    priors.put(record);
    record.set_float(OFFSET, offset);
    let code = exports::rove_fbd_scale(&mut record.0);
    process.take(record);
    record.proposal(code)
}

impl Clock {
    fn record(&self) -> Record {
        let mut record = Record::empty();
        record.set_float(AT + 1, self.sigma);
        record
    }

    /// Whether this is a clock: a positive finite sigma, and two or more positive finite rates.
    pub fn validate(&self) -> Result<(), Refusal> {
        let mut record = self.record();
        let code = exports::rove_clock(&self.rates, &mut record.0);
        record.verdict(code)
    }

    /// The rate of the branch above a node.
    pub fn branch_rate(&self, node: usize, root: usize) -> Result<f64, Refusal> {
        let mut record = self.record();
        record.set_index(word::NODE, node);
        record.set_index(word::ROOT, root);
        let code = exports::rove_branch_rate(&self.rates, &mut record.0);
        record.verdict(code)?;
        Ok(record.float(word::FIRST))
    }

    /// Stores a new sigma where it is positive and finite; whether it did.
    pub fn set_sigma(&mut self, sigma: f64) -> Result<bool, Refusal> {
        let mut record = self.record();
        record.set_float(AT + 2, sigma);
        let code = exports::rove_set_sigma(&self.rates, &mut record.0);
        self.sigma = record.float(AT + 1);
        record.verdict(code)?;
        Ok(record.0[word::FIRST] != 0)
    }

    /// Stores a new rate where it is positive and finite; whether it did.
    pub fn set_rate(&mut self, index: usize, rate: f64) -> Result<bool, Refusal> {
        let mut record = self.record();
        record.set_index(word::NODE, index);
        record.set_float(AT + 2, rate);
        let code = exports::rove_set_rate(&mut self.rates, &mut record.0);
        record.verdict(code)?;
        Ok(record.0[word::FIRST] != 0)
    }
}
