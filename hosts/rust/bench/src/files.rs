//! The state file: `rove_answer` beside a plain Rust reading, move and printing, written the obvious way.

use crate::rounds::{Way, line, medians};
use cases::{Chance, Kind, Sample, StateFile};
use reference::mcmc::Move;
use reference::tree::Tree;
use rove::{LONGEST_ANSWER, exports};
use std::fmt::Write;
use std::hint::black_box;

pub fn table() {
    println!("\n| state file | nodes | plain Rust, ns | port | port over Rust |");
    println!("|---|---|---|---|---|");
    for (tips, times) in [(16, 2000), (101, 400), (2048, 20)] {
        let file = file(tips);
        let mut answer = vec![0; LONGEST_ANSWER];
        let length = exports::rove_answer(&file, &mut answer);
        assert_eq!(plain(&file).as_bytes(), &answer[..length], "both print the same");
        let (here, there) = (file.clone(), file);
        let mut ways: Vec<Way> = vec![
            Box::new(move || {
                let file = here.clone();
                Box::new(move || (0..times).for_each(|_| drop(black_box(plain(black_box(&file))))))
            }),
            Box::new(move || {
                let (file, mut answer) = (there.clone(), vec![0; LONGEST_ANSWER]);
                Box::new(move || {
                    for _ in 0..times {
                        black_box(exports::rove_answer(black_box(&file), black_box(&mut answer)));
                    }
                })
            }),
        ];
        let seen = medians(times, &mut ways);
        println!("{}", line("RootScale", &(2 * tips - 1).to_string(), &seen, &[(0, 1)]));
    }
}

fn file(tips: usize) -> Vec<u8> {
    let sample = Sample::plain(&mut Chance::new(7), tips);
    let internal = sample.pairs.chunks_exact(2).skip(tips);
    StateFile {
        draws: 9,
        state: [1, 2, 3, 4],
        kind: Kind::RootScale,
        node: 0,
        tuning: 0.999_999f64.to_bits(),
        tips: tips as u64,
        pairs: internal.map(|pair| (pair[0], pair[1])).collect(),
        heights: sample.heights.iter().map(|height| height.to_bits()).collect(),
    }
    .write()
}

/// The answer of a RootScale that moves.
fn plain(file: &[u8]) -> String {
    let text = str::from_utf8(file).expect("text");
    let mut lines = text.lines().map(|line| line.split_once('=').expect("a key").1);
    let mut next = || lines.next().expect("a line");
    let hex = |text: &str| u64::from_str_radix(text, 16).expect("hexadecimal");
    next();
    next();
    let state: Vec<u64> = next().split(',').map(hex).collect();
    let _ = (next(), next());
    let tuning = f64::from_bits(hex(next()));
    let tips: usize = next().parse().expect("a number");
    let mut children = vec![None; tips];
    for _ in 1..tips {
        let (a, b) = next().split_once(',').expect("a pair");
        children.push(Some((a.parse().expect("a node"), b.parse().expect("a node"))));
    }
    let heights = (1..2 * tips).map(|_| f64::from_bits(hex(next()))).collect();
    let mut tree = Tree::new(children, heights).expect("a tree");
    let mut random = reference::from_state([state[0], state[1], state[2], state[3]]).expect("a state");
    let u = random.clone().uniform();
    reference::propose(Move::RootScale, &mut tree, tuning, &mut random).expect("a move");
    printed(&tree, reference::state(&random), tuning + u * (1.0 / tuning - tuning))
}

fn printed(tree: &Tree, state: [u64; 4], factor: f64) -> String {
    let [a, b, c, d] = state;
    let mut text = format!("answer=moved\ndraws=1\nstate={a:016x},{b:016x},{c:016x},{d:016x}\n");
    writeln!(text, "ratio=power,{:016x},-1\nroot={}", factor.to_bits(), tree.root()).expect("text");
    for node in tree.tips()..tree.nodes() {
        let (a, b) = tree.children(node).expect("children");
        writeln!(text, "pair={a},{b}").expect("text");
    }
    for node in 0..tree.nodes() {
        writeln!(text, "height={:016x}", tree.height(node).to_bits()).expect("text");
    }
    text
}
