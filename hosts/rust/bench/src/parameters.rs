//! The calls on parameters: the Rust's alone, with the checks that a caller can make, and the port's.

use crate::moves::{port_tree, rust_tree};
use crate::rounds::{Way, line, medians};
use cases::{Chance, Sample};
use reference::dating::{Dating, FossilizedBirthDeath, ProcessPriors, TipAge};
use reference::mcmc::Move;
use reference::random::Random;
use reference::rates::{RateVariation, RelaxedClock};
use reference::speciation::SpeciationState;
use reference::tree::Tree;
use rove::{Ages, Answer, Clock, Field, Generator, Priors, Process, Proposal};
use std::hint::black_box;

const STATE: [u64; 4] = [1, 2, 3, 4];

pub fn table() {
    println!(
        "\n| call | of | Rust, ns | Rust with checks | port | port over Rust | port over Rust with checks |"
    );
    println!("|---|---|---|---|---|---|---|");
    show("`scale`", "", 4000, scale(4000));
    show("`fbd_scale`", "", 4000, fbd(4000));
    show("`branch_rate_scale`", "20 rates", 4000, branch_rate(20, 4000));
    show("`branch_rate_scale`", "4,094 rates", 200, branch_rate(4094, 200));
    for (tips, times) in [(16, 2000), (101, 500), (2048, 50)] {
        let nodes = format!("{} nodes", 2 * tips - 1);
        show("`validate` of ages", &nodes, times, validate_ages(tips, times));
        show("`propose_age`", &nodes, times, propose_age(tips, times));
        show("`initialize`", &nodes, times, initialize(tips, times));
        show("`yule_log_density`", &nodes, times, yule(tips, times));
        show("`clade_age` of one tip", &nodes, times, clade_age(tips, 1, times));
        show("`clade_age` of all tips", &nodes, times, clade_age(tips, tips, times));
    }
}

fn show(name: &str, of: &str, times: usize, mut ways: Vec<Way>) {
    println!("{}", line(name, of, &medians(times, &mut ways), &[(0, 2), (1, 2)]));
}

/// A way that runs one thing so many times, with what it needs made anew for each round.
fn way<S: 'static>(times: usize, make: impl Fn() -> S + 'static, run: fn(&mut S)) -> Way<'static> {
    Box::new(move || {
        let mut given = make();
        Box::new(move || (0..times).for_each(|_| run(&mut given)))
    })
}

fn random() -> Random {
    reference::from_state(STATE).expect("a state")
}

fn log(proposal: Proposal) -> Option<f64> {
    match proposal {
        Proposal::Scaled(_, ratio) => Some(ratio.ln()),
        _ => None,
    }
}

fn scale(times: usize) -> Vec<Way<'static>> {
    let rust = |(value, random): &mut (f64, Random)| {
        black_box(reference::mcmc::scale(value, f64::MAX, 0.75, random));
    };
    let port = |(value, generator): &mut (f64, Generator)| {
        black_box(log(rove::scale(value, f64::MAX, 0.75, generator, 65_535)));
    };
    vec![
        way(times, || (1.0, random()), rust),
        way(times, || (1.0, random()), rust),
        way(times, || (1.0, Generator::from_state(STATE)), port),
    ]
}

fn fbd(times: usize) -> Vec<Way<'static>> {
    let process = FossilizedBirthDeath {
        birth: 1.0,
        death: 0.5,
        fossil_sampling: 0.25,
        present_sampling: 0.5,
        origin: 9.0,
    };
    let priors = ProcessPriors { birth_rate_mean: Some(1.0), ..Default::default() };
    let rust = |(process, priors, random): &mut (FossilizedBirthDeath, ProcessPriors, Random)| {
        black_box(reference::propose_process(*priors, Move::FbdBirthScale, process, 1.0, 0.75, random));
    };
    let checked = |(process, priors, random): &mut (FossilizedBirthDeath, ProcessPriors, Random)| {
        black_box(priors.validate().is_ok() && process.validate().is_ok());
        black_box(reference::propose_process(*priors, Move::FbdBirthScale, process, 1.0, 0.75, random));
    };
    let port = |(process, priors, generator): &mut (Process, Priors, Generator)| {
        black_box(log(rove::fbd_scale(Field::Birth, priors, process, 1.0, 0.75, generator, 65_535)));
    };
    let ours = Priors { birth_rate_mean: Some(1.0), ..Default::default() };
    vec![
        way(times, move || (process, priors, random()), rust),
        way(times, move || (process, priors, random()), checked),
        way(times, move || (port_process(process), ours, Generator::from_state(STATE)), port),
    ]
}

fn port_process(process: FossilizedBirthDeath) -> Process {
    let FossilizedBirthDeath { birth, death, fossil_sampling, present_sampling, origin } = process;
    Process { birth, death, fossil_sampling, present_sampling, origin }
}

fn branch_rate(count: usize, times: usize) -> Vec<Way<'static>> {
    type Given = (RateVariation, Tree, Random);
    fn propose((rates, tree, random): &mut Given) {
        let mut none = SpeciationState::Yule { birth_rate: 1.0 };
        let kind = Move::BranchRateScale;
        black_box(reference::propose_parameter(kind, tree, &mut none, rates, 1.0, 0.75, random));
    }
    let checked = |given: &mut Given| {
        let clock = given.0.clock.as_ref().expect("a clock");
        black_box(RelaxedClock::new(clock.sigma(), clock.rates().to_vec()).is_ok());
        propose(given);
    };
    let port = |(clock, generator): &mut (Clock, Generator)| {
        black_box(log(rove::branch_rate_scale(Some(clock), 0.75, generator, 65_535)));
    };
    let made = move || {
        let clock = RelaxedClock::new(0.5, vec![1.0; count]).expect("a clock");
        let rates = RateVariation { clock: Some(clock), ..Default::default() };
        (rates, rust_tree(&Sample::plain(&mut Chance::new(7), 2)), random())
    };
    vec![
        way(times, made, propose),
        way(times, made, checked),
        way(
            times,
            move || (Clock { sigma: 0.5, rates: vec![1.0; count] }, Generator::from_state(STATE)),
            port,
        ),
    ]
}

/// What the Rust and the port are given with an age table: every tip is between a quarter and a half of its parent's age.
type Given = (Tree, Dating, Random);
type Ours = (rove::Tree, Ages, Process, Generator);

fn rust_dated(tips: usize) -> Given {
    let sample = Sample::plain(&mut Chance::new(7), tips);
    let parents = sample.parents();
    let half = |tip: usize| sample.heights[usize::from(parents[tip])] / 2.0;
    let ages = (0..tips).map(|tip| TipAge { minimum: half(tip) / 2.0, maximum: half(tip) }).collect();
    let origin = sample.heights[sample.root()] * 2.0;
    let process =
        FossilizedBirthDeath { birth: 1.0, death: 0.5, fossil_sampling: 0.25, present_sampling: 0.5, origin };
    let dating = Dating { process, process_priors: None, ages, clock_rate: 1.0, clock_prior_mean: None };
    (rust_tree(&sample), dating, random())
}

fn port_dated(tips: usize) -> Ours {
    let sample = Sample::plain(&mut Chance::new(7), tips);
    let (_, dating, _) = rust_dated(tips);
    let (minima, maxima) = dating.ages.iter().map(|age| (age.minimum, age.maximum)).unzip();
    (port_tree(&sample), Ages { minima, maxima }, port_process(dating.process), Generator::from_state(STATE))
}

fn check((tree, dating, _): &Given) {
    black_box(tree.validate().is_ok() && dating.validate(tree.tips()).is_ok());
}

/// The Rust's test of the table looks at the process's rules and the clock's rate too.
fn validate_ages(tips: usize, times: usize) -> Vec<Way<'static>> {
    let rust = |(tree, dating, _): &mut Given| {
        black_box(dating.validate(tree.tips())).expect("in order");
    };
    let port = |(tree, ages, process, _): &mut Ours| {
        black_box(ages.validate(tree.nodes(), process)).expect("in order");
    };
    vec![
        way(times, move || rust_dated(tips), rust),
        way(times, move || rust_dated(tips), rust),
        way(times, move || port_dated(tips), port),
    ]
}

fn propose_age(tips: usize, times: usize) -> Vec<Way<'static>> {
    fn rust((tree, dating, random): &mut Given) {
        black_box(reference::propose_age(dating, tree, random));
    }
    let checked = |given: &mut Given| {
        check(given);
        rust(given);
    };
    let port = |(tree, ages, process, generator): &mut Ours| {
        let answer = tree.propose_age(ages, process, generator, 65_535);
        black_box(matches!(answer, Answer::Moved(_)));
    };
    vec![
        way(times, move || rust_dated(tips), rust),
        way(times, move || rust_dated(tips), checked),
        way(times, move || port_dated(tips), port),
    ]
}

fn initialize(tips: usize, times: usize) -> Vec<Way<'static>> {
    fn rust((tree, dating, _): &mut Given) {
        reference::initialize(dating, black_box(tree));
    }
    let checked = |given: &mut Given| {
        check(given);
        rust(given);
    };
    let port = |(tree, ages, process, _): &mut Ours| {
        black_box(tree.initialize(ages, process)).expect("in order");
    };
    vec![
        way(times, move || rust_dated(tips), rust),
        way(times, move || rust_dated(tips), checked),
        way(times, move || port_dated(tips), port),
    ]
}

fn yule(tips: usize, times: usize) -> Vec<Way<'static>> {
    let sample = Sample::plain(&mut Chance::new(7), tips);
    let (rust, port) = (rust_tree(&sample), port_tree(&sample));
    let density = |tree: &mut Tree| {
        black_box(reference::speciation::yule_log_density(black_box(tree), 0.5));
    };
    let checked = |tree: &mut Tree| {
        black_box(tree.validate().is_ok());
        black_box(reference::speciation::yule_log_density(black_box(tree), 0.5));
    };
    let ours = |tree: &mut rove::Tree| {
        black_box(tree.yule_log_density(0.5).map(rove::Density::ln)).expect("a tree");
    };
    let also = rust.clone();
    vec![
        way(times, move || rust.clone(), density),
        way(times, move || also.clone(), checked),
        way(times, move || port.clone(), ours),
    ]
}

/// The age of the last tips, so many of them. The Rust has no clade age; beside it stands `is_monophyletic`, which looks for
/// the clade.
fn clade_age(tips: usize, members: usize, times: usize) -> Vec<Way<'static>> {
    let sample = Sample::plain(&mut Chance::new(7), tips);
    let marks: Vec<bool> = (0..tips).map(|tip| tip >= tips - members).collect();
    let bytes: Vec<u8> = marks.iter().map(|&mark| u8::from(mark)).collect();
    let (rust, port) = ((rust_tree(&sample), marks), (port_tree(&sample), bytes));
    let search = |(tree, marks): &mut (Tree, Vec<bool>)| {
        black_box(tree.is_monophyletic(black_box(marks)));
    };
    let checked = |(tree, marks): &mut (Tree, Vec<bool>)| {
        black_box(tree.validate().is_ok());
        black_box(tree.is_monophyletic(black_box(marks)));
    };
    let ours = |(tree, bytes): &mut (rove::Tree, Vec<u8>)| {
        black_box(tree.clade_age(black_box(bytes))).expect("an age");
    };
    let also = rust.clone();
    vec![
        way(times, move || rust.clone(), search),
        way(times, move || also.clone(), checked),
        way(times, move || port.clone(), ours),
    ]
}
