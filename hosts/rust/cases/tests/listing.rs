//! The program listing on two files that differ in their allowance alone: request S-5 is of calls by values, since a larger
//! allowance may take a file past the program's limit of 65,536 bytes.

use cases::{Kind, StateFile};
use std::io::Write;
use std::process::{Command, Stdio};

/// What the program prints for a file. It stands where `rt run` builds it.
fn listed(file: &[u8]) -> String {
    let program = concat!(env!("CARGO_MANIFEST_DIR"), "/../../../crates/listing/out/listing");
    let mut listing = Command::new(program)
        .stdin(Stdio::piped())
        .stdout(Stdio::piped())
        .spawn()
        .unwrap_or_else(|why| panic!("{program}: {why}"));
    listing.stdin.take().expect("its input").write_all(file).expect("the file is read");
    let output = listing.wait_with_output().expect("its output");
    String::from_utf8(output.stdout).expect("text")
}

/// Tips 0 to 1,055 in a comb, and a slide of the lowest internal node, 1,056, that leaves its parent at its height.
fn file(draws: u64) -> Vec<u8> {
    let tips = 1056;
    let pair = |tip: u16| (if tip == 1 { 0 } else { tips + tip - 2 }, tip);
    let height = |node: u16| f64::from(node.saturating_sub(tips - 1));
    StateFile {
        draws,
        state: [1, 2, 3, 4],
        kind: Kind::SubtreeSlide,
        node: tips.into(),
        tuning: 0,
        tips: tips.into(),
        pairs: (1..tips).map(pair).collect(),
        heights: (0..2 * tips - 1).map(|node| height(node).to_bits()).collect(),
    }
    .write()
}

#[test]
fn a_file_may_be_too_long_with_a_larger_allowance() {
    let [least, most, over] = [1000, 9999, 10_000].map(file);
    assert_eq!([least.len(), most.len(), over.len()], [65_536, 65_536, 65_537]);
    let answer = listed(&most);
    assert!(answer.starts_with("answer=moved\ndraws=0\n"), "{answer}");
    assert_eq!(listed(&least), answer);
    assert_eq!(listed(&over), "answer=refused,9,0\n");
}
