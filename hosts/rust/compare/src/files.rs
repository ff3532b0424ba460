//! State files: valid ones, damaged ones, and ones at the limits, and the port's text beside the oracle's.

use crate::oracle::{self, Compared, Outcome};
use crate::tally::{Tally, refused};
use cases::damage::damaged;
use cases::{Chance, Kind, Sample, StateFile, shapes};
use rove::{LONGEST_ANSWER, exports};

/// Floats past the limits of a tuning, and at them.
const TUNINGS: [f64; 14] = [
    1e-8,
    9.999_999_999_999_999e-9,
    1.0,
    1.000_000_000_000_000_2,
    0.0,
    -0.0,
    -0.5,
    2.0,
    f64::from_bits(1),
    f64::MAX,
    f64::INFINITY,
    f64::NEG_INFINITY,
    f64::NAN,
    0.999_999_999_999_999_9,
];

/// So many files, compared byte for byte.
pub fn compare(count: u64, seed: u64) -> Compared<Tally> {
    let mut chance = Chance::new(seed);
    let mut tally = Tally::new("files", count);
    let mut buffer = vec![0; LONGEST_ANSWER];
    while tally.total() < count {
        let file = case(&mut chance)?;
        let expected =
            oracle::answer(&file).map_err(|fault| format!("{fault}\nfile:\n{}", file.escape_ascii()))?;
        let length = exports::rove_answer(&file, &mut buffer);
        if buffer[..length] != expected {
            return Err(difference(&file, &expected, &buffer[..length]));
        }
        tally.count(kind_of(&file), answer_of(&expected));
    }
    Ok(tally)
}

fn difference(file: &[u8], expected: &[u8], given: &[u8]) -> String {
    let [file, expected, given] =
        [file, expected, given].map(|text| text.escape_ascii().to_string().replace("\\n", "\n"));
    format!(
        "the answers to a state file differ\nfile:\n{file}\nthe Rust's answer:\n{expected}\nthe port's answer:\n{given}"
    )
}

/// The move that a file names; "no move" where that line is not to be found.
pub fn kind_of(file: &[u8]) -> &'static str {
    let line = file.split(|&byte| byte == 10).nth(3).unwrap_or_default();
    let name = line.strip_prefix(b"move=").unwrap_or_default();
    Kind::ALL.iter().map(|kind| kind.name()).find(|kind| kind.as_bytes() == name).unwrap_or("no move")
}

/// The answer that a text gives: a word, or a refusal's number.
pub fn answer_of(text: &[u8]) -> &'static str {
    match text.get(..9) {
        Some(b"answer=mo") => "moved",
        Some(b"answer=de") => "declined",
        _ => refused(text.get(15).map_or(0, |digit| u64::from(digit.wrapping_sub(b'0')))),
    }
}

/// The bytes of a file.
pub fn case(chance: &mut Chance) -> Compared<Vec<u8>> {
    let tips = shapes::tips(chance);
    case_of(chance, tips)
}

/// The same on a tree of so many tips, where the tree is not of another size on purpose.
pub fn case_of(chance: &mut Chance, tips: usize) -> Compared<Vec<u8>> {
    let mut file = valid(chance, tips);
    match chance.below(20) {
        0..3 => wrong_tree(chance, &mut file),
        3..6 => at_limits(chance, &mut file),
        6..10 => {
            allow(chance, &mut file)?;
            return Ok(damaged(chance, &file.write()));
        }
        10 if chance.once_in(4) => return Ok(odd_size(chance)),
        10 if chance.once_in(3) => file.state = [0; 4],
        _ => {}
    }
    allow(chance, &mut file)?;
    Ok(file.write())
}

/// A file of a tree and a move on it, with draws to spare.
pub fn valid(chance: &mut Chance, tips: usize) -> StateFile {
    let sample = Sample::tree(chance, tips);
    let kind = chance.pick(&Kind::ALL);
    let (node, tuning) = match kind {
        Kind::SubtreeSlide => slide(chance, &sample),
        kind if kind.scales() => (0, tuning(chance)),
        _ => (0, 0.0),
    };
    let internal = sample.pairs.chunks_exact(2).skip(tips);
    StateFile {
        draws: 65_535,
        state: chance.state(),
        kind,
        node: node as u64,
        tuning: tuning.to_bits(),
        tips: tips as u64,
        pairs: internal.map(|pair| (pair[0], pair[1])).collect(),
        heights: sample.heights.iter().map(|height| height.to_bits()).collect(),
    }
}

/// A tuning within its limits.
pub fn tuning(chance: &mut Chance) -> f64 {
    match chance.below(8) {
        0 => 1e-8,
        1 => 1.0,
        2 => 0.999_999,
        3 => chance.unit() * 1e-3 + 1e-8,
        _ => 0.25 + 0.75 * chance.unit(),
    }
}

/// A node other than the root, and a step for its parent.
fn slide(chance: &mut Chance, sample: &Sample) -> (usize, f64) {
    let root = sample.root();
    let node = loop {
        let node = chance.below(sample.nodes());
        if node != root {
            break node;
        }
    };
    let parent = usize::from(sample.parents()[node]);
    let old = sample.heights[parent];
    let top = sample.heights[root];
    let other = sample.heights[chance.below(sample.nodes())];
    let step = match chance.below(16) {
        0 => 0.0,
        1 => -0.0,
        2 => f64::MAX * chance.unit(),
        3 => -f64::MAX,
        4 => f64::from_bits(chance.word() >> 62),
        5..9 => other - old,
        9 => (other - old).next_up(),
        10 => (other - old).next_down(),
        11 => top * chance.unit(),
        _ => (2.0 * chance.unit() - 1.0) * top,
    };
    (node, step)
}

/// An allowance: to spare, small, or one short of what the move takes, as much, or one more.
fn allow(chance: &mut Chance, file: &mut StateFile) -> Compared<()> {
    match chance.below(8) {
        0..3 => {}
        3 => file.draws = chance.between(1, 6) as u64,
        _ => {
            let draws = match oracle::outcome(&StateFile { draws: 65_535, ..file.clone() })? {
                Outcome::Moved { draws, .. } | Outcome::Declined { draws, .. } => draws,
                Outcome::Refused(_) => return Ok(()),
            };
            file.draws = (draws + chance.below(3) as u64).saturating_sub(1);
        }
    }
    Ok(())
}

/// Changes one to three pairs or heights.
fn wrong_tree(chance: &mut Chance, file: &mut StateFile) {
    for _ in 0..chance.pick(&[1, 1, 2, 3]) {
        let (place, place2) = (chance.below(file.pairs.len()), chance.below(file.pairs.len()));
        let (height, height2) = (chance.below(file.heights.len()), chance.below(file.heights.len()));
        match chance.below(12) {
            0 => file.pairs[place].0 = any_node(chance, file),
            1 => file.pairs[place].1 = any_node(chance, file),
            2 => file.pairs[place].0 = file.pairs[place].1,
            3 => file.pairs[place].1 = (file.tips as usize + place) as u16,
            4 => file.pairs.swap(place, place2),
            5 | 6 => ring(chance, file),
            7 => file.heights[height] ^= 1 << 63,
            8 => file.heights[height] = chance.float().to_bits(),
            9 => file.heights[height] = file.heights[height2],
            10 => file.heights.swap(height, height2),
            _ => file.heights[height] = f64::from_bits(file.heights[height]).next_up().to_bits(),
        }
    }
}

/// A node, or a number that is none.
fn any_node(chance: &mut Chance, file: &StateFile) -> u16 {
    let nodes = file.heights.len();
    match chance.below(6) {
        0 => nodes as u16,
        1 => chance.pick(&[65_535, 65_534, 4095, 4094]),
        _ => chance.below(nodes) as u16,
    }
}

/// Exchanges two children: where one is an ancestor of the other's parent, they end in a ring.
fn ring(chance: &mut Chance, file: &mut StateFile) {
    let (from, to) = (chance.below(file.pairs.len()), chance.below(file.pairs.len()));
    let (a, b) = (file.pairs[from].0, file.pairs[to].1);
    file.pairs[from].0 = b;
    file.pairs[to].1 = a;
}

/// A parameter at or past its limits.
fn at_limits(chance: &mut Chance, file: &mut StateFile) {
    match chance.below(4) {
        0 => file.draws = chance.pick(&[0, 1, 65_535, 65_536, 1 << 31, (1 << 32) - 1]),
        1 if file.kind.uses_node() => {
            let nodes = file.heights.len();
            file.node = chance.pick(&[0, nodes - 1, nodes, nodes + 1, 65_534, 65_535]) as u64;
        }
        2 => file.node = chance.pick(&[0, 1, 65_535, 65_536]),
        3 if !file.kind.uses_tuning() => file.tuning = chance.pick(&[0, 1, 1 << 63]),
        _ if file.kind.uses_tuning() => file.tuning = chance.pick(&TUNINGS).to_bits(),
        _ => {}
    }
}

/// A file of no tips, of one, of more than a tree may have, or with more or fewer lines than its tips make.
fn odd_size(chance: &mut Chance) -> Vec<u8> {
    let tips = chance.pick(&[0, 0, 1, 1, 2, 2, 3, 2048, 2049, 2050, 2297]);
    let (pairs, heights) = (usize::max(tips, 1) - 1, (2 * tips).max(1) - 1);
    let kind = chance.pick(&Kind::ALL);
    let file = StateFile {
        draws: chance.pick(&[0, 1, 65_535]),
        state: chance.state(),
        kind,
        node: 0,
        tuning: if kind.uses_tuning() { 0.5f64.to_bits() } else { 0 },
        tips: chance.pick(&[tips, tips, tips, tips, tips + 1, usize::max(tips, 1) - 1, u32::MAX as usize])
            as u64,
        pairs: vec![(0, 1); pairs],
        heights: vec![0; heights],
    };
    file.write()
}
