//! A door to what of the Rust only its own crate can name.

use crate::dating::{Dating, FossilizedBirthDeath, ProcessPriors};
use crate::mcmc::Move;
use crate::random::Random;
use crate::rates::{RateVariation, RelaxedClock};
use crate::speciation::SpeciationState;
use crate::tree::Tree;

/// A tree move, which looks at no parameter but its tuning.
pub fn propose(kind: Move, tree: &mut Tree, tuning: f64, random: &mut Random) -> Option<f64> {
    let mut speciation = SpeciationState::Yule { birth_rate: 1.0 };
    let mut rates = RateVariation::default();
    kind.propose(tree, &mut speciation, &mut rates, f64::MAX, Some(tuning), random)
}

/// A move of rates or of speciation, which does not look at the tree.
pub fn propose_parameter(
    kind: Move,
    tree: &mut Tree,
    speciation: &mut SpeciationState,
    rates: &mut RateVariation,
    upper: f64,
    tuning: f64,
    random: &mut Random,
) -> Option<f64> {
    kind.propose(tree, speciation, rates, upper, Some(tuning), random)
}

pub fn propose_process(
    priors: ProcessPriors,
    kind: Move,
    process: &mut FossilizedBirthDeath,
    offset: f64,
    tuning: f64,
    random: &mut Random,
) -> Option<f64> {
    priors.propose(kind, process, offset, tuning, random)
}

pub fn propose_age(dating: &Dating, tree: &mut Tree, random: &mut Random) -> Option<f64> {
    dating.propose_age(tree, random)
}

pub fn initialize(dating: &Dating, tree: &mut Tree) {
    dating.initialize(tree);
}

pub fn set_sigma(clock: &mut RelaxedClock, sigma: f64) -> bool {
    clock.set_sigma(sigma)
}

pub fn set_rate(clock: &mut RelaxedClock, index: usize, rate: f64) -> bool {
    clock.set_rate(index, rate)
}
