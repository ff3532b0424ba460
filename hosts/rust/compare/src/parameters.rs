//! The calls on parameters: scales, the clock, the process and its priors.

use crate::again::Again;
use crate::ages;
use crate::clades;
use crate::dating;
use crate::oracle::{Compared, allowed, drawn, tuned, unspent};
use crate::plain::{bits, random, same_float, same_floats};
use crate::port::noisy;
use crate::tally::Tally;
use crate::trees::{Called, answered, called, stepped};
use crate::values;
use cases::Chance;
use rove::{Record, Refusal, exports, word};
use scripted::dating::{FossilizedBirthDeath, ProcessPriors};
use scripted::mcmc::Move;
use scripted::random::Random;
use scripted::rates::{RateVariation, RelaxedClock};
use scripted::speciation::{BirthDeath, SpeciationState};
use scripted::tree::Tree;

type Trial = fn(&mut Chance, &mut Again) -> Compared<&'static str>;

const TRIALS: [(&str, Trial); 19] = [
    ("scale", scale),
    ("clock_rate_scale", clock_rate_scale),
    ("birth_difference_scale", |chance, again| speciation_scale(chance, again, Move::BirthDifferenceScale)),
    ("birth_rate_scale", |chance, again| speciation_scale(chance, again, Move::BirthRateScale)),
    ("relative_death_scale", |chance, again| speciation_scale(chance, again, Move::RelativeDeathScale)),
    ("clock_sigma_scale", |chance, again| clock_scale(chance, again, Move::ClockSigmaScale)),
    ("branch_rate_scale", |chance, again| clock_scale(chance, again, Move::BranchRateScale)),
    ("fbd_scale", fbd_scale),
    ("clock", |chance, _| clock(chance)),
    ("branch_rate", |chance, _| branch_rate(chance)),
    ("set_sigma", |chance, _| set_sigma(chance)),
    ("set_rate", |chance, _| set_rate(chance)),
    ("validate_priors", |chance, _| validate_priors(chance)),
    ("validate_ages", |chance, _| ages::validate_ages(chance)),
    ("initialize", |chance, _| dating::initialize(chance)),
    ("propose_age", dating::propose_age),
    ("yule_log_density", |chance, _| dating::yule_log_density(chance)),
    ("is_monophyletic", |chance, _| clades::is_monophyletic(chance)),
    ("clade_age", |chance, _| clades::clade_age(chance)),
];

/// So many calls, some made again; beside each one of the trials of single values.
pub fn compare(count: u64, seed: u64) -> Compared<Tally> {
    let mut chance = Chance::new(seed);
    let mut other = Chance::new(!seed);
    let mut again = Again::new(seed);
    let mut tally = Tally::new("parameters", count);
    while tally.total() < count {
        let (name, trial) = chance.pick(&TRIALS);
        let answer = trial(&mut chance, &mut again).map_err(|fault| format!("{name} differs: {fault}"))?;
        tally.count(name, answer);
        values::beside(&values::OF_PARAMETERS, &mut other, &mut tally)?;
    }
    again.tell(&mut tally);
    Ok(tally)
}

// ---- what goes in

/// A record of noise with a generator, an allowance and a tuning, all mostly within their limits.
pub fn drawing(chance: &mut Chance) -> Record {
    let state = if chance.once_in(32) { [0; 4] } else { chance.state() };
    let allowance = match chance.below(8) {
        0 => chance.pick(&[0, 1, 1, 2, 65_536, u64::MAX, (1 << 32) + 1]),
        1..4 => chance.between(1, 9) as u64,
        _ => 65_535,
    };
    let mut record = noisy(chance, state, 0, allowance);
    let tuning = if chance.once_in(8) { chance.float() } else { crate::files::tuning(chance) };
    record.set_float(word::TUNING, tuning);
    record
}

/// A value: mostly an ordinary one, at times any float.
pub fn value(chance: &mut Chance) -> f64 {
    match chance.below(8) {
        0 => chance.float(),
        1 => chance.pick(&[0.0, -0.0, 1.0, f64::MAX, 1e308, f64::from_bits(1), f64::MIN_POSITIVE, -1.0]),
        _ => chance.unit() * 2.0,
    }
}

/// A flag: 0, or anything else.
fn flag(chance: &mut Chance) -> u64 {
    if chance.once_in(5) { 0 } else { chance.pick(&[1, 2, u64::MAX, 1 << 63]) }
}

/// A float at a place where a flag before it says that it is given.
fn optional(record: &Record, place: usize) -> Option<f64> {
    (record.0[place] != 0).then(|| record.float(place + 1))
}

fn set_optional(chance: &mut Chance, record: &mut Record, place: usize) {
    record.set(place, flag(chance));
    record.set_float(place + 1, value(chance));
}

/// A clock's rates: two to forty, at times fewer or many, at times one of them wrong.
fn rates(chance: &mut Chance) -> Vec<f64> {
    let count = match chance.below(64) {
        0 => chance.below(2),
        1 => 4094,
        _ => chance.between(2, 40),
    };
    let mut rates: Vec<f64> = (0..count).map(|_| chance.unit() + f64::MIN_POSITIVE).collect();
    if count > 0 && chance.once_in(4) {
        rates[chance.below(count)] = value(chance);
    }
    rates
}

// ---- proposals

/// How a proposal ends.
enum Ended {
    Refused(Refusal),
    Declined { draws: u64, state: [u64; 4] },
    Scaled { draws: u64, state: [u64; 4], factor: f64 },
}

/// The Rust's proposal within the allowance, where the parameters are within their limits. The factor is made of the last
/// draw.
fn proposed(
    record: &Record,
    limits: bool,
    run: impl FnOnce(f64, &mut Random) -> Option<f64>,
) -> Compared<Ended> {
    let (from, allowance) = (record.state(), record.0[word::ALLOWANCE]);
    let tuning = record.float(word::TUNING);
    if !(limits && tuned(tuning) && allowed(allowance)) {
        return Ok(Ended::Refused(Refusal::Parameter(0)));
    }
    let mut random = Random::of(from, allowance);
    let ran = unspent(|| run(tuning, &mut random));
    let (Some(log), Some(draws)) = (ran, drawn(&random, from, allowance)) else {
        return Ok(Ended::Refused(Refusal::Allowance(allowance)));
    };
    let state = random.state();
    let Some(log) = log else {
        return Ok(Ended::Declined { draws, state });
    };
    let u = last_uniform(from, draws);
    let factor = tuning + u * (1.0 / tuning - tuning);
    if same_float(log, -factor.ln()) {
        return Ok(Ended::Scaled { draws, state, factor });
    }
    Err(format!(
        "the Rust's logarithm is {log:e}, that of document 01's factor {factor:e} is {:e}",
        -factor.ln()
    ))
}

/// The uniform that is the last of so many draws.
fn last_uniform(from: [u64; 4], draws: u64) -> f64 {
    if from == [0; 4] {
        return 0.0;
    }
    let mut random = random(from);
    for _ in 1..draws {
        random.next_u64();
    }
    random.uniform()
}

/// That a call ended so; the words are what it changes where it scales.
fn compared(call: &Called, ended: Ended, changed: &[(usize, u64)]) -> Compared<&'static str> {
    match ended {
        Ended::Refused(why) => call.is_refused(why),
        Ended::Declined { draws, state } => {
            call.is(1, &[&stepped(state)[..], &answered(1, draws, 0, 0, 0)].concat())?;
            Ok("declined")
        }
        Ended::Scaled { draws, state, factor } => {
            let answer = answered(0, draws, 3, factor.to_bits(), -1i64 as u64);
            call.is(0, &[&stepped(state)[..], &answer, changed].concat())?;
            Ok("scaled")
        }
    }
}

fn scale(chance: &mut Chance, again: &mut Again) -> Compared<&'static str> {
    let mut record = drawing(chance);
    let (mut x, upper) = (value(chance), value(chance));
    record.set_float(13, x);
    record.set_float(14, upper);
    let call = again.called(record, exports::rove_scale)?;
    let limits = x.is_finite() && upper.is_finite() && upper >= 0.0;
    let ended = proposed(&call.before, limits, |tuning, random| {
        scripted::mcmc::scale(&mut x, upper, tuning, random)
    })?;
    compared(&call, ended, &[(13, x.to_bits())])
}

/// A tree for the moves that do not look at it.
fn least_tree() -> Tree {
    Tree::new(vec![None, None, Some((0, 1))], vec![0.0, 0.0, 1.0]).expect("the least tree")
}

/// The Rust's move of rates.
fn rates_move(kind: Move, rates: &mut RateVariation, tuning: f64, random: &mut Random) -> Option<f64> {
    let mut none = SpeciationState::Yule { birth_rate: 1.0 };
    scripted::propose_parameter(kind, &mut least_tree(), &mut none, rates, 1.0, tuning, random)
}

fn clock_rate_scale(chance: &mut Chance, again: &mut Again) -> Compared<&'static str> {
    let mut record = drawing(chance);
    set_optional(chance, &mut record, 13);
    let call = again.called(record, exports::rove_clock_rate_scale)?;
    let mut rates = RateVariation { mean: optional(&call.before, 13), ..Default::default() };
    let limits = rates.mean.is_none_or(f64::is_finite);
    let ended = proposed(&call.before, limits, |tuning, random| {
        rates_move(Move::ClockRateScale, &mut rates, tuning, random)
    })?;
    compared(&call, ended, &[(14, rates.mean.unwrap_or_default().to_bits())])
}

fn speciation_scale(chance: &mut Chance, again: &mut Again, kind: Move) -> Compared<&'static str> {
    let mut record = drawing(chance);
    record.set(13, chance.pick(&[0, 0, 1, u64::MAX]));
    for place in 14..17 {
        record.set_float(place, value(chance));
    }
    let export = match kind {
        Move::BirthDifferenceScale => exports::rove_birth_difference_scale,
        Move::BirthRateScale => exports::rove_birth_rate_scale,
        _ => exports::rove_relative_death_scale,
    };
    let call = again.called(record, export)?;
    let [first, second, upper] = [14, 15, 16].map(|place| call.before.float(place));
    let mut speciation = if call.before.0[13] == 0 {
        SpeciationState::Yule { birth_rate: first }
    } else {
        SpeciationState::BirthDeath(BirthDeath { birth_difference: first, relative_death: second })
    };
    let two = call.before.0[13] != 0;
    let ends = kind == Move::RelativeDeathScale || upper.is_finite() && upper >= 0.0;
    let limits = first.is_finite() && (!two || second.is_finite()) && ends;
    let ended = proposed(&call.before, limits, |tuning, random| {
        let mut none = RateVariation::default();
        scripted::propose_parameter(
            kind,
            &mut least_tree(),
            &mut speciation,
            &mut none,
            upper,
            tuning,
            random,
        )
    })?;
    let changed = match speciation {
        SpeciationState::Yule { birth_rate } => vec![(14, birth_rate.to_bits())],
        SpeciationState::BirthDeath(p) => {
            vec![(14, p.birth_difference.to_bits()), (15, p.relative_death.to_bits())]
        }
    };
    compared(&call, ended, &changed)
}

/// ClockSigmaScale and BranchRateScale. Without a sigma there is no clock, whatever the rates.
fn clock_scale(chance: &mut Chance, again: &mut Again, kind: Move) -> Compared<&'static str> {
    let mut record = drawing(chance);
    set_optional(chance, &mut record, 13);
    let given = rates(chance);
    let mut lent = given.clone();
    let call = again.called(record, |words| {
        lent.copy_from_slice(&given);
        match kind {
            Move::ClockSigmaScale => exports::rove_clock_sigma_scale(&lent, words),
            _ => exports::rove_branch_rate_scale(&mut lent, words),
        }
    })?;
    let sigma = optional(&call.before, 13);
    let clock = sigma.map(|sigma| RelaxedClock::new(sigma, given.clone()));
    let limits = !matches!(clock, Some(Err(_)));
    let mut rates = RateVariation { clock: clock.and_then(Result::ok), ..Default::default() };
    let ended =
        proposed(&call.before, limits, |tuning, random| rates_move(kind, &mut rates, tuning, random))?;
    let (sigma, after) = match (&ended, &rates.clock) {
        (Ended::Scaled { .. }, Some(clock)) => (clock.sigma().to_bits(), clock.rates()),
        _ => (call.before.0[14], &given[..]),
    };
    let told = |fault| format!("rates {}, afterwards {}{fault}", bits(&given), bits(&lent));
    if !same_floats(&lent, after) {
        return Err(told(format!(" and not {}", bits(after))));
    }
    compared(&call, ended, &[(14, sigma)]).map_err(told)
}

// ---- the process

fn process(record: &Record) -> FossilizedBirthDeath {
    let [birth, death, fossil_sampling, present_sampling, origin] =
        [13, 14, 15, 16, 17].map(|place| record.float(place));
    FossilizedBirthDeath { birth, death, fossil_sampling, present_sampling, origin }
}

pub fn priors(record: &Record) -> ProcessPriors {
    ProcessPriors {
        birth_rate_mean: optional(record, 18),
        death_rate_mean: optional(record, 20),
        fossil_sampling_rate_mean: optional(record, 22),
        present_sampling_beta: optional(record, 24).map(|a| (a, record.float(26))),
        origin_excess_mean: optional(record, 27),
    }
}

/// The priors' words; mostly all are finite.
pub fn set_priors(chance: &mut Chance, record: &mut Record) {
    let wrong = chance.once_in(4);
    let none = chance.once_in(16);
    for place in [18, 20, 22, 24, 27] {
        record.set(place, if none { 0 } else { flag(chance) });
        record.set_float(place + 1, if wrong { value(chance) } else { chance.unit() + 0.001 });
    }
    let edge = chance.pick(&[0.001, 1000.0, 0.000_999_999_999_999_999_9, 1_000.000_000_000_000_1, 1.0]);
    record.set_float(26, if wrong { edge } else { chance.unit() + 0.001 });
}

fn fbd_scale(chance: &mut Chance, again: &mut Again) -> Compared<&'static str> {
    let mut record = drawing(chance);
    record.set(word::NODE, chance.pick(&[0, 0, 1, 1, 2, 2, 3, 3, 3, 4, u64::MAX, 1 << 32]));
    for place in 13..18 {
        record.set_float(place, if chance.once_in(4) { value(chance) } else { chance.unit() * 2.0 });
    }
    set_priors(chance, &mut record);
    record.set_float(29, value(chance));
    let call = again.called(record, exports::rove_fbd_scale)?;
    let kind = match call.before.0[word::NODE] {
        0 => Some(Move::FbdBirthScale),
        1 => Some(Move::FbdDeathScale),
        2 => Some(Move::FbdSamplingScale),
        3 => Some(Move::FbdOriginScale),
        _ => None,
    };
    let (mut process, priors, offset) = (process(&call.before), priors(&call.before), call.before.float(29));
    let finite = process_finite(&process) && priors_finite(&priors);
    let limits = kind.is_some() && finite && offset.is_finite() && offset >= 0.0;
    let ended = proposed(&call.before, limits, |tuning, random| {
        scripted::propose_process(priors, kind.expect("a field"), &mut process, offset, tuning, random)
    })?;
    let fields =
        [process.birth, process.death, process.fossil_sampling, process.present_sampling, process.origin];
    let changed: Vec<(usize, u64)> = fields.iter().enumerate().map(|(i, x)| (13 + i, x.to_bits())).collect();
    compared(&call, ended, &changed)
}

pub fn process_finite(process: &FossilizedBirthDeath) -> bool {
    let FossilizedBirthDeath { birth, death, fossil_sampling, present_sampling, origin } = *process;
    [birth, death, fossil_sampling, present_sampling, origin].into_iter().all(f64::is_finite)
}

fn priors_finite(priors: &ProcessPriors) -> bool {
    let means = [
        priors.birth_rate_mean,
        priors.death_rate_mean,
        priors.fossil_sampling_rate_mean,
        priors.origin_excess_mean,
        priors.present_sampling_beta.map(|(a, _)| a),
        priors.present_sampling_beta.map(|(_, b)| b),
    ];
    means.into_iter().flatten().all(f64::is_finite)
}

fn validate_priors(chance: &mut Chance) -> Compared<&'static str> {
    let mut record = Record(chance.words());
    set_priors(chance, &mut record);
    let call = called(record, exports::rove_validate_priors);
    verdict(&call, priors(&call.before).validate().is_ok())
}

// ---- the clock

/// That a call found all in order, or refused with 5.
fn verdict(call: &Called, fine: bool) -> Compared<&'static str> {
    if !fine {
        return call.is_refused(Refusal::Parameter(0));
    }
    call.is(0, &answered(0, 0, 0, 0, 0))?;
    Ok("given")
}

/// A clock by chance: a record with its sigma, and its rates.
fn any_clock(chance: &mut Chance) -> (Record, Vec<f64>) {
    let mut record = Record(chance.words());
    let sigma = value(chance);
    record.set_float(14, sigma);
    (record, rates(chance))
}

fn clock(chance: &mut Chance) -> Compared<&'static str> {
    let (record, rates) = any_clock(chance);
    let call = called(record, |words| exports::rove_clock(&rates, words));
    verdict(&call, RelaxedClock::new(call.before.float(14), rates).is_ok())
}

/// A number about that of the rates, or one far from it.
fn index(chance: &mut Chance, count: usize) -> u64 {
    match chance.below(6) {
        0 => chance.pick(&[count as u64 + 1, u64::MAX, 1 << 32, 65_535]),
        1 => count as u64,
        _ => chance.below(count + 1) as u64,
    }
}

fn branch_rate(chance: &mut Chance) -> Compared<&'static str> {
    let (mut record, rates) = any_clock(chance);
    record.set(word::NODE, index(chance, rates.len()));
    record.set(word::ROOT, index(chance, rates.len()));
    let call = called(record, |words| exports::rove_branch_rate(&rates, words));
    let (node, root, count) = (call.before.0[word::NODE], call.before.0[word::ROOT], rates.len() as u64);
    match RelaxedClock::new(call.before.float(14), rates) {
        Ok(clock) if node <= count && root <= count => {
            let rate = clock.branch_rate(node as usize, root as usize);
            call.is(0, &answered(0, 0, 0, rate.to_bits(), 0))?;
            Ok("given")
        }
        _ => call.is_refused(Refusal::Parameter(0)),
    }
}

fn set_sigma(chance: &mut Chance) -> Compared<&'static str> {
    let (mut record, rates) = any_clock(chance);
    record.set_float(15, value(chance));
    let call = called(record, |words| exports::rove_set_sigma(&rates, words));
    let Ok(mut clock) = RelaxedClock::new(call.before.float(14), rates) else {
        return call.is_refused(Refusal::Parameter(0));
    };
    let stored = scripted::set_sigma(&mut clock, call.before.float(15));
    let answer = answered(0, 0, 0, u64::from(stored), 0);
    call.is(0, &[&answer[..], &[(14, clock.sigma().to_bits())]].concat())?;
    Ok(if stored { "stored" } else { "not stored" })
}

fn set_rate(chance: &mut Chance) -> Compared<&'static str> {
    let (mut record, rates) = any_clock(chance);
    record.set_float(15, value(chance));
    record.set(word::NODE, index(chance, rates.len()));
    let mut lent = rates.clone();
    let call = called(record, |words| exports::rove_set_rate(&mut lent, words));
    let index = call.before.0[word::NODE];
    let clock = RelaxedClock::new(call.before.float(14), rates.clone()).ok();
    let Some(mut clock) = clock.filter(|_| index < rates.len() as u64) else {
        return if same_floats(&lent, &rates) {
            call.is_refused(Refusal::Parameter(0))
        } else {
            Err("rates changed".into())
        };
    };
    let stored = scripted::set_rate(&mut clock, index as usize, call.before.float(15));
    if !same_floats(&lent, clock.rates()) {
        return Err(format!("rates {}, index {index}, afterwards {}", bits(&rates), bits(&lent)));
    }
    call.is(0, &answered(0, 0, 0, u64::from(stored), 0))?;
    Ok(if stored { "stored" } else { "not stored" })
}
