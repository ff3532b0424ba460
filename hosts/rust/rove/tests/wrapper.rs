//! The wrapper on tree F and at the edges of its types. What the calls answer is compared with the Rust elsewhere; here
//! it is only whether numbers go in and come out at their places.

use rove::*;

const NONE: u16 = 65_535;

/// 3=(0,1) at 1, 4=(3,2) at 2, tips at 0.
fn tree_f() -> Tree {
    let pairs = vec![NONE, NONE, NONE, NONE, NONE, NONE, 0, 1, 3, 2];
    Tree::new(pairs, vec![0.0, 0.0, 0.0, 1.0, 2.0]).expect("a tree")
}

fn moved(answer: Answer) -> Moved {
    match answer {
        Answer::Moved(moved) => moved,
        other => panic!("{other:?}"),
    }
}

#[test]
fn tree() {
    let tree = tree_f();
    assert_eq!((tree.root, tree.nodes(), tree.tips()), (4, 5, 3));
    assert_eq!(tree.parents, [3, 3, 4, 4, NONE]);
    assert_eq!(tree.validate(), Ok(()));
    assert_eq!(tree.postorder(), Ok(vec![0, 1, 3, 2, 4]));
    let wrong = Tree { root: 3, ..tree };
    assert_eq!(wrong.validate(), Err(Refusal::Disconnected));
    assert_eq!(wrong.postorder(), Err(Refusal::Disconnected));
}

#[test]
fn lengths() {
    let tree = tree_f();
    let lengths = [0, 1, 2, 3, 4].map(|node| tree.branch_length(node));
    assert_eq!(lengths, [Ok(1.0), Ok(1.0), Ok(2.0), Ok(1.0), Ok(0.0)]);
    assert_eq!(tree.tree_length(), Ok(5.0));
    assert_eq!(tree.branch_length(5), Err(Refusal::Parameter(0)));
    let loose = Tree { parents: vec![3, 3, 4, 9, NONE], ..tree.clone() };
    assert_eq!(loose.branch_length(2), Ok(2.0));
    assert_eq!(loose.branch_length(3), Err(Refusal::Parameter(0)));
    assert_eq!(loose.tree_length(), Err(Refusal::Parameter(0)));
    let short = Tree { heights: vec![0.0; 4], ..tree };
    assert_eq!([short.branch_length(0), short.tree_length()], [Err(Refusal::Size(5)); 2]);
}

#[test]
fn sizes() {
    for nodes in [1, 2, 4, 4097] {
        let refused = Tree::new(vec![NONE; 2 * nodes], vec![0.0; nodes]);
        assert_eq!(refused, Err(Refusal::Size(nodes as u64)));
    }
    let empty = Tree { pairs: vec![], parents: vec![], heights: vec![], root: 0 };
    assert_eq!(Tree::new(vec![], vec![]), Err(Refusal::Size(0)));
    assert_eq!(empty.validate(), Err(Refusal::Size(0)));
    assert_eq!(empty.postorder(), Err(Refusal::Size(0)));
    let mut generator = Generator::from_state([1, 2, 3, 4]);
    let answer = empty.clone().wide_exchange(&mut generator, 9);
    assert_eq!(answer, Answer::Refused(Refusal::Size(0)));
    assert_eq!(generator, Generator::from_state([1, 2, 3, 4]));
}

#[test]
fn generator() {
    let mut generator = Generator::from_state([1, 2, 3, 4]);
    assert_eq!(generator.next_u64(), 41_943_041);
    assert_eq!(generator.next_u64(), 58_720_359);
    assert_eq!(Generator::from_state([0; 4]).below(4, 1), Ok(Drawn { number: 0, draws: 1 }));
    assert_eq!(Generator::from_state([0; 4]).below(3, 65_535), Err(Refusal::Allowance(65_535)));
    assert_eq!(Generator::from_state([0; 4]).below(0, 1), Err(Refusal::Parameter(0)));
}

/// Request S-5: only a 6 turns into something else, and a 7 stays.
#[test]
fn larger_allowances() {
    let start = Generator::from_state([1, 2, 3, 4]);
    let wide = |allowance| {
        let (mut tree, mut generator) = (tree_f(), start.clone());
        (tree.wide_exchange(&mut generator, allowance), tree, generator)
    };
    assert_eq!(wide(4), (Answer::Refused(Refusal::Allowance(4)), tree_f(), start.clone()));
    assert_eq!(moved(wide(5).0).draws, 5);
    assert_eq!(wide(5), wide(65_535));
    let high = Tree { heights: vec![0.0, 0.0, 0.0, f64::MAX, f64::MAX], ..tree_f() };
    for allowance in [1, 65_535] {
        let (mut tree, mut generator) = (high.clone(), start.clone());
        let answer = tree.subtree_slide(0, f64::MAX, &mut generator, allowance);
        assert_eq!(
            (answer, tree, generator),
            (Answer::Refused(Refusal::NotFinite(3)), high.clone(), start.clone())
        );
        let spent = Generator::from_state([0; 4]).below(3, allowance);
        assert_eq!(spent, Err(Refusal::Allowance(allowance)));
    }
}

#[test]
fn uniforms_and_coins() {
    let mut generator = Generator::from_state([1, 2, 3, 4]);
    assert_eq!(generator.uniform(), 5.0 / (1u64 << 41) as f64);
    assert_eq!(generator.uniform(), (58_720_359u64 >> 11) as f64 / (1u64 << 53) as f64);
    let mut drawn = Generator::from_state([1, 2, 3, 4]);
    drawn.next_u64();
    drawn.next_u64();
    assert_eq!(generator, drawn);
    let mut first = Generator::from_state([0, 0, 0, 1 << 40]);
    assert!(first.clone().coin());
    assert_eq!(first.next_u64(), 1 << 63);
    assert!(!Generator::from_state([1, 2, 3, 4]).coin());
}

/// Of a generator whose last word alone is not 0, the first draw is that word rotated left by 23.
#[test]
fn uniforms_of_numerators() {
    for numerator in [0u64, 1, (1 << 32) - 1, 1 << 32, 1 << 52, (1 << 53) - 1] {
        for rest in [0, 2047] {
            let draw = numerator << 11 | rest;
            let mut drawing = Generator::from_state([0, 0, 0, draw.rotate_right(23)]);
            assert_eq!(drawing.clone().next_u64(), draw);
            assert_eq!(drawing.uniform().to_bits(), (numerator as f64 / (1u64 << 53) as f64).to_bits());
        }
    }
}

#[test]
fn moves_by_their_numbers() {
    for (number, kind) in Move::ALL.into_iter().enumerate() {
        assert_eq!(kind as usize, number);
        assert!(kind.changes_tree() || !kind.changes_topology());
    }
    assert_eq!(Move::SubtreeSlide.initial_tuning(), Some(1.0));
    assert_eq!(Move::FbdBirthScale.initial_tuning(), Some(0.75));
    assert_eq!(Move::ClockSigmaRates.initial_tuning(), Some(0.5));
    assert_eq!(Move::WideExchange.initial_tuning(), None);
    let changes = |kind: Move| [kind.changes_fbd(), kind.changes_tree(), kind.changes_topology()];
    assert_eq!(changes(Move::FbdRhoLogit), [true, false, false]);
    assert_eq!(changes(Move::TipAge), [false, true, false]);
    assert_eq!(changes(Move::NarrowExchangeRates), [false, true, true]);
    assert_eq!(changes(Move::MorphologyRateScale), [false, false, false]);
    for number in [25, 65_535, 1 << 32, u64::MAX] {
        let mut record = Record::empty();
        record.set(word::NODE, number);
        assert_eq!(exports::rove_changes_tree(&mut record.0), 2);
        assert_eq!(record.refusal(), Refusal::Parameter(0));
    }
}

#[test]
fn factors() {
    let tuning = Move::RootScale.initial_tuning().expect("a scale has one");
    assert_eq!([scaler(tuning, 0.0), scaler(0.5, 1.0), scaler(0.5, 0.5)], [0.75, 2.0, 1.25]);
    assert_eq!(scaler(0.0, 0.0).to_bits(), f64::NAN.to_bits());
}

#[test]
fn slide_up_and_down() {
    let (mut tree, mut generator) = (tree_f(), Generator::from_state([1, 2, 3, 4]));
    let up = moved(tree.subtree_slide(0, 2.0, &mut generator, 9));
    assert_eq!((up.root, up.draws, up.ratio), (3, 0, Ratio::Counts(1, 2)));
    assert_eq!(up.ratio.ln_upward().to_bits(), (-(2.0f64.ln())).to_bits());
    assert_eq!((tree.root, &tree.pairs[6..]), (3, &[0, 4, 1, 2][..]));
    let down = moved(tree.subtree_slide(0, -2.0, &mut generator, 9));
    assert_eq!((down.root, down.draws, down.ratio), (4, 1, Ratio::Counts(2, 1)));
    assert_eq!(tree, tree_f());
    assert_eq!(tree.subtree_slide(4, 1.0, &mut generator, 9), Answer::Refused(Refusal::Parameter(0)));
    assert_eq!(tree.subtree_slide(0, -1.5, &mut generator, 9), Answer::Declined(0));
}

#[test]
fn slide_start() {
    let (tree, mut generator) = (tree_f(), Generator::from_state([1, 2, 3, 4]));
    let started = tree.slide_start(&mut generator, 9).expect("a node");
    assert_eq!((started.node, started.draws), (0, 3));
    assert_eq!(started.uniforms[0], (58_720_359u64 >> 11) as f64 / (1u64 << 53) as f64);
    assert_eq!(tree.slide_start(&mut Generator::from_state([1, 2, 3, 4]), 2), Err(Refusal::Allowance(2)));
}

#[test]
fn ratios() {
    assert_eq!(Ratio::Even.ln(), 0.0);
    assert_eq!(Ratio::Counts(1, 2).ln(), 0.5f64.ln());
    assert_eq!(Ratio::Lengths(3.0, 2.0).ln(), 1.5f64.ln());
    assert_eq!(Ratio::Power(0.5, -1).ln(), -(0.5f64.ln()));
    assert_eq!(Ratio::Counts(1, 1).ln_upward().to_bits(), (-0.0f64).to_bits());
}

#[test]
fn refusals() {
    for number in 1..=10 {
        let refusal = Refusal::of(number, 7).expect("a refusal");
        assert_eq!(refusal.number(), number);
        assert_eq!(refusal.detail(), if number == 3 || number == 10 { 0 } else { 7 });
        assert_eq!(refusal.to_string(), format!("refused,{number},{}", refusal.detail()));
    }
    assert_eq!([Refusal::of(0, 0), Refusal::of(11, 0)], [None; 2]);
    assert_eq!(Refusal::of(9, 7), Some(Refusal::Line(7)));
    assert_eq!((Refusal::Place(7).number(), Refusal::Place(7).detail()), (9, 7));
}

#[test]
fn unvalidated() {
    let (mut tree, mut generator) = (tree_f(), Generator::from_state([1, 2, 3, 4]));
    let moved = moved(tree.root_scale_unvalidated(0.5, &mut generator, 9));
    assert_eq!((moved.root, moved.draws), (4, 1));
    assert_eq!(tree.heights[4].to_bits(), 0x3ff0_0000_0000_7800);
}

#[test]
fn scales() {
    let state = [1, 2, 3, 4];
    // The first uniform of this state is 5·2^−41, which makes 0.5 a factor a little above it.
    let factor = 0.5 + 5.0 / (1u64 << 41) as f64 * 1.5;
    let scaled = Proposal::Scaled(1, Ratio::Power(factor, -1));
    let mut value = 3.0;
    assert_eq!(scale(&mut value, 9.0, 0.5, &mut Generator::from_state(state), 9), scaled);
    assert_eq!(value, 3.0 * factor);
    let mut mean = Some(2.0);
    assert_eq!(clock_rate_scale(&mut mean, 0.5, &mut Generator::from_state(state), 9), scaled);
    assert_eq!(mean, Some(2.0 * factor));
    assert_eq!(clock_rate_scale(&mut None, 0.5, &mut Generator::from_state(state), 9), Proposal::Declined(0));
    let mut yule = Speciation::Yule { birth_rate: 2.0 };
    assert_eq!(birth_rate_scale(&mut yule, 9.0, 0.5, &mut Generator::from_state(state), 9), scaled);
    assert_eq!(yule, Speciation::Yule { birth_rate: 2.0 * factor });
    let mut both = Speciation::BirthDeath { birth_difference: 2.0, relative_death: 0.5 };
    assert_eq!(birth_difference_scale(&mut both, 9.0, 0.5, &mut Generator::from_state(state), 9), scaled);
    assert_eq!(relative_death_scale(&mut both, 0.5, &mut Generator::from_state(state), 9), scaled);
    let after = Speciation::BirthDeath { birth_difference: 2.0 * factor, relative_death: 0.5 * factor };
    assert_eq!(both, after);
}

#[test]
fn clock() {
    let mut clock = Clock { sigma: 0.5, rates: vec![1.0, 2.0] };
    assert_eq!(clock.validate(), Ok(()));
    assert_eq!(
        [clock.branch_rate(0, 2), clock.branch_rate(2, 1), clock.branch_rate(2, 2)],
        [Ok(1.0), Ok(2.0), Ok(1.0)]
    );
    assert_eq!(clock.branch_rate(3, 0), Err(Refusal::Parameter(0)));
    assert_eq!([clock.set_sigma(0.25), clock.set_sigma(-1.0)], [Ok(true), Ok(false)]);
    assert_eq!([clock.set_rate(1, 4.0), clock.set_rate(0, 0.0)], [Ok(true), Ok(false)]);
    assert_eq!(clock, Clock { sigma: 0.25, rates: vec![1.0, 4.0] });
    assert_eq!(clock.set_rate(2, 1.0), Err(Refusal::Parameter(0)));
    let state = [1, 2, 3, 4];
    let Proposal::Scaled(1, Ratio::Power(factor, -1)) =
        clock_sigma_scale(Some(&mut clock), 0.5, &mut Generator::from_state(state), 9)
    else {
        panic!("a scale");
    };
    assert_eq!(clock.sigma, 0.25 * factor);
    let Proposal::Scaled(2, Ratio::Power(factor, -1)) =
        branch_rate_scale(Some(&mut clock), 0.5, &mut Generator::from_state(state), 9)
    else {
        panic!("a scale");
    };
    assert_eq!(clock.rates, [factor, 4.0]);
    assert_eq!(branch_rate_scale(None, 0.5, &mut Generator::from_state(state), 9), Proposal::Declined(0));
    assert_eq!(clock_sigma_scale(None, 0.5, &mut Generator::from_state(state), 9), Proposal::Declined(0));
    let none = Clock { sigma: 1.0, rates: vec![] };
    assert_eq!(none.validate(), Err(Refusal::Parameter(0)));
}

#[test]
fn process() {
    let mut process =
        Process { birth: 1.0, death: 2.0, fossil_sampling: 3.0, present_sampling: 0.5, origin: 8.0 };
    let priors = Priors { origin_excess_mean: Some(1.0), ..Priors::default() };
    assert_eq!(priors.validate(), Ok(()));
    assert_eq!(Priors::default().validate(), Err(Refusal::Parameter(0)));
    assert_eq!(
        Priors { present_sampling_beta: Some((1.0, 0.0)), ..priors }.validate(),
        Err(Refusal::Parameter(0))
    );
    let estimated: Vec<Move> = Move::ALL.into_iter().filter(|&kind| priors.estimates(kind)).collect();
    assert_eq!(estimated, [Move::FbdOriginScale]);
    assert!(Priors { present_sampling_beta: Some((1.0, 2.0)), ..priors }.estimates(Move::FbdRhoLogit));
    let mut generator = Generator::from_state([1, 2, 3, 4]);
    let answer = fbd_scale(Field::Birth, &priors, &mut process, 2.0, 0.5, &mut generator, 9);
    assert_eq!(answer, Proposal::Declined(0));
    let Proposal::Scaled(1, Ratio::Power(factor, -1)) =
        fbd_scale(Field::Origin, &priors, &mut process, 2.0, 0.5, &mut generator, 9)
    else {
        panic!("a scale");
    };
    let origin = 2.0 + 6.0 * factor;
    assert_eq!(
        process,
        Process { birth: 1.0, death: 2.0, fossil_sampling: 3.0, present_sampling: 0.5, origin }
    );
}

#[test]
fn dating() {
    let mut tree = tree_f();
    let process =
        Process { birth: 1.0, death: 0.5, fossil_sampling: 0.5, present_sampling: 0.5, origin: 10.0 };
    let ages = Ages { minima: vec![1.0, 0.0, 0.0], maxima: vec![3.0, 0.0, 0.0] };
    assert_eq!(tree.initialize(&ages, &process), Ok(()));
    assert_eq!(tree.heights[0], 2.0);
    let answer = tree.propose_age(&ages, &process, &mut Generator::from_state([1, 2, 3, 4]), 9);
    assert!(matches!(answer, Answer::Moved(Moved { ratio: Ratio::Even, .. })), "{answer:?}");
    let wrong = Ages { minima: vec![1.0, -1.0, 0.0], ..ages.clone() };
    assert_eq!(tree.initialize(&wrong, &process), Err(Refusal::Parameter(1)));
    let short = Ages { minima: vec![], maxima: vec![] };
    assert_eq!(tree.initialize(&short, &process), Err(Refusal::Size(5)));
    assert_eq!([ages.validate(5, &process), ages.validate(7, &process)], [Ok(()), Err(Refusal::Size(7))]);
}

#[test]
fn lowest_tip_at_fault() {
    let process =
        Process { birth: 1.0, death: 0.5, fossil_sampling: 0.5, present_sampling: 0.0, origin: 10.0 };
    let crossed_then_present = Ages { minima: vec![1.0, 2.0, 0.0], maxima: vec![1.0, 1.0, 0.0] };
    let present_then_crossed = Ages { minima: vec![1.0, 0.0, 2.0], maxima: vec![1.0, 0.0, 1.0] };
    for ages in [crossed_then_present, present_then_crossed] {
        assert_eq!(ages.validate(5, &process), Err(Refusal::Parameter(1)));
        let endless = Process { birth: f64::INFINITY, ..process };
        assert_eq!(ages.validate(5, &endless), Err(Refusal::Parameter(1)));
        let answer = tree_f().propose_age(&ages, &process, &mut Generator::from_state([1, 2, 3, 4]), 0);
        assert_eq!(answer, Answer::Refused(Refusal::Parameter(1)));
        let mut flat = tree_f();
        flat.heights.fill(0.0);
        assert_eq!(flat.initialize(&ages, &process), Err(Refusal::Parameter(1)));
    }
}

#[test]
fn densities_and_clades() {
    let tree = tree_f();
    let density = tree.yule_log_density(0.5).expect("a density");
    assert_eq!(density, Density::Terms { power: 2, rate: 0.5, product: 2.5 });
    assert_eq!(density.ln(), 2.0 * 0.5f64.ln() - 2.5);
    assert_eq!(tree.yule_log_density(0.0), Ok(Density::MinusInfinity));
    assert_eq!([tree.is_monophyletic(&[1, 1, 0]), tree.is_monophyletic(&[1, 0, 1])], [Ok(true), Ok(false)]);
    assert_eq!([tree.clade_age(&[1, 1, 0]), tree.clade_age(&[1, 0, 1])], [Ok(1000), Ok(2000)]);
    assert_eq!(tree.clade_age(&[0, 0, 0]), Err(Refusal::Parameter(0)));
    assert_eq!(tree.clade_age(&[]), Err(Refusal::Size(5)));
}

#[test]
fn single_tips() {
    let mut tree = tree_f();
    let singles = [[1, 0, 0], [0, 1, 0], [0, 0, 1]];
    assert_eq!(singles.map(|members| tree.is_monophyletic(&members)), [Ok(true); 3]);
    assert_eq!(singles.map(|members| tree.clade_age(&members)), [Ok(1000), Ok(1000), Ok(2000)]);
    tree.heights = vec![0.5, 1.0, 0.0, 1.0, (1u64 << 43) as f64];
    let old = Err(Refusal::Parameter(0));
    assert_eq!(singles.map(|members| tree.clade_age(&members)), [Ok(1000), Ok(1000), old]);
}

#[test]
fn file() {
    assert_eq!(answer(b""), b"answer=refused,9,1\n");
    assert_eq!(answer(&vec![b'\n'; 131_073]), b"answer=refused,9,0\n");
}

#[test]
fn newick() {
    let mut tree = tree_f();
    let text = b"((0:1.000,1:1.000):1.000,2:2.000);";
    assert_eq!(tree.newick(), Ok(text.to_vec()));
    let read = NewickTree { pairs: tree.pairs.clone(), ages: vec![0, 0, 0, 1000, 2000] };
    assert_eq!(read_newick(text), Ok(read));
    assert_eq!(read_newick(&text[..33]), Err(Refusal::Place(33)));
    assert_eq!(read_newick(b"(0:1.000,1:1.0000);"), Err(Refusal::Place(16)));
    tree.heights[4] = (1u64 << 43) as f64;
    assert_eq!(tree.newick(), Err(Refusal::Parameter(0)));
    tree.root = 3;
    assert_eq!(tree.newick(), Err(Refusal::Disconnected));
}

/// A comb of as many tips as there may be, numbered in the order in which its parentheses close.
#[test]
fn longest_newick() {
    let (tips, nodes) = (2048, 4095);
    let mut pairs = vec![NONE; 2 * nodes];
    for node in tips..nodes {
        let below = if node == tips { 0 } else { node - 1 };
        pairs[2 * node..2 * node + 2].copy_from_slice(&[below as u16, (node - tips + 1) as u16]);
    }
    let heights = (0..nodes).map(|node| node.saturating_sub(tips - 1) as f64).collect();
    let text = Tree::new(pairs.clone(), heights).and_then(|tree| tree.newick()).expect("a copy");
    assert!(text.len() <= LONGEST_NEWICK);
    let ages = (0..nodes).map(|node| 1000 * node.saturating_sub(tips - 1) as u64).collect();
    assert_eq!(read_newick(&text), Ok(NewickTree { pairs, ages }));
    let more = [b"(".as_slice(), &text[..text.len() - 1], b":1.000,2048:1.000);"].concat();
    assert_eq!(read_newick(&more), Err(Refusal::Place(more.len() as u64)));
}
