//! Document 01's example: RootScale on the tree 3=(0,1) at 1, 4=(3,2) at 2, once by a state file and once in memory; and
//! the same factor by the functions that give single values, the tree's Newick copy, a tip that is dated by its stem, and an
//! age table that is mended from the top.

use rove::{Ages, Answer, Generator, Move, Process, Ratio, Refusal, Tree};
use std::fmt::Write;

const FILE: &str = "edition=1
draws=9
state=0000000000000001,0000000000000002,0000000000000003,0000000000000004
move=RootScale
node=0
tuning=3fe0000000000000
tips=3
pair=0,1
pair=3,2
height=0000000000000000
height=0000000000000000
height=0000000000000000
height=3ff0000000000000
height=4000000000000000
";

fn main() {
    let in_memory = moved_in_memory();
    print!("{in_memory}");
    let text = String::from_utf8(rove::answer(FILE.as_bytes())).expect("text");
    assert_eq!(text, in_memory, "the state file's answer is that of the call");
    println!("The state file gives the same text.");
    let mut generator = Generator::from_state([1, 2, 3, 4]);
    let factor = rove::scaler(0.5, generator.uniform());
    let by_hand = format!("ratio=power,{:016x},-1\n", factor.to_bits());
    assert!(in_memory.contains(&by_hand), "the factor is that of the next uniform");
    let tuning = Move::RootScale.initial_tuning().expect("a scale has one");
    let length = example_tree().tree_length().expect("a length");
    println!(
        "Its factor is {factor}; a chain starts with the tuning {tuning}, and the tree has a length of {length}."
    );
    println!("{}", String::from_utf8(example_tree().newick().expect("a copy")).expect("text"));
    let stem = example_tree().clade_age(&[0, 0, 1]).expect("an age");
    assert_eq!(stem, 2000, "the height of its parent, the root");
    println!("Tip 2 is dated by its stem, at {stem} thousandths.");
    println!("An age table is mended at tips {:?}.", mended());
}

/// The tips of an age table that are named one after the other, each being put at the present.
fn mended() -> Vec<u64> {
    let process =
        Process { birth: 1.0, death: 0.5, fossil_sampling: 0.5, present_sampling: 0.5, origin: 10.0 };
    let mut ages = Ages { minima: vec![0.0, 2.0, 2.0], maxima: vec![0.0, 1.0, 1.0] };
    let mut tips = Vec::new();
    while let Err(why) = ages.validate(example_tree().nodes(), &process) {
        let Refusal::Parameter(tip) = why else { panic!("the table has one age for each tip") };
        (ages.minima[tip as usize], ages.maxima[tip as usize]) = (0.0, 0.0);
        tips.push(tip);
    }
    assert_eq!(tips, [1, 2], "the lowest first");
    tips
}

fn example_tree() -> Tree {
    const NONE: u16 = 65_535;
    let pairs = vec![NONE, NONE, NONE, NONE, NONE, NONE, 0, 1, 3, 2];
    Tree::new(pairs, vec![0.0, 0.0, 0.0, 1.0, 2.0]).expect("a tree")
}

/// The move on a tree in memory, printed as the answer to the file is.
fn moved_in_memory() -> String {
    let mut tree = example_tree();
    let mut generator = Generator::from_state([1, 2, 3, 4]);
    let Answer::Moved(moved) = tree.root_scale(0.5, &mut generator, 9) else {
        panic!("the example moves");
    };
    let Ratio::Power(factor, exponent) = moved.ratio else {
        panic!("a scale's ratio is a power");
    };
    let [a, b, c, d] = generator.state();
    let mut text =
        format!("answer=moved\ndraws={}\nstate={a:016x},{b:016x},{c:016x},{d:016x}\n", moved.draws);
    writeln!(text, "ratio=power,{:016x},{exponent}\nroot={}", factor.to_bits(), moved.root).expect("text");
    for pair in tree.pairs.chunks(2).skip(tree.tips()) {
        writeln!(text, "pair={},{}", pair[0], pair[1]).expect("text");
    }
    for height in &tree.heights {
        writeln!(text, "height={:016x}", height.to_bits()).expect("text");
    }
    text
}
