//! Copies of trees: as the request has them, as any reader of Newick takes them, of the shape that the Rust writes, and
//! read back.

use crate::newick::{read, write};
use crate::oracle::Compared;
use crate::plain::{port_tree, rust_tree, shown};
use crate::tally::{Tally, refused};
use crate::wrong::{judged, wrong_tree};
use cases::age::thousandths;
use cases::newick::{self, general, written};
use cases::{Chance, Sample, shapes};
use rove::Refusal;

/// Heights for a root: about the first that is not printed, and below.
const ROOTS: [f64; 8] = [
    8_796_093_022_207.998,
    8_796_093_022_207.999,
    8_796_093_022_208.0,
    8_796_093_022_208.002,
    8e12,
    1e9,
    1000.0,
    0.001,
];

pub fn copy(chance: &mut Chance, tally: &mut Tally) -> Compared<&'static str> {
    let tips = shapes::tips(chance);
    let mut sample = Sample::tree(chance, tips);
    redate(chance, &mut sample);
    if chance.once_in(2) {
        sample = sample.closing();
    }
    copied(chance, tally, &sample)
}

/// The largest trees, and a comb on either side.
pub fn large(chance: &mut Chance, tally: &mut Tally) -> Compared<()> {
    for tips in [2047, 2048] {
        let any = Sample::plain(chance, tips);
        for sample in [Sample::comb(tips, true), Sample::comb(tips, false), Sample::balanced(tips), any] {
            let answer = copied(chance, tally, &sample)?;
            tally.also("a large copy", answer, 1);
        }
    }
    Ok(())
}

/// Heights at which a print changes, in an order that is as it was.
fn redate(chance: &mut Chance, sample: &mut Sample) {
    let root = sample.root();
    let height = chance.pick(&ROOTS);
    let factor = height / sample.heights[root];
    let whole = |x: f64| (x * 1000.0).floor().min(1e15) / 1000.0;
    let mut each = |f: &dyn Fn(f64) -> f64| sample.heights.iter_mut().for_each(|x| *x = f(*x));
    match chance.below(8) {
        0..3 if factor.is_finite() && factor > 0.0 => {
            each(&|x| (x * factor).min(height));
            sample.heights[root] = height;
        }
        3 => each(&whole),
        4 => each(&|x| whole(x).next_up()),
        5 => each(&|x| whole(x).next_down().max(0.0)),
        _ => {}
    }
}

/// The copy of a tree, and the tree of its copy.
fn copied(chance: &mut Chance, tally: &mut Tally, sample: &Sample) -> Compared<&'static str> {
    let tree = port_tree(sample);
    let ages: Option<Vec<u64>> = sample.heights.iter().map(|&height| thousandths(height)).collect();
    let expected = match &ages {
        Some(ages) => Ok(written(&sample.pairs, ages, tree.root)),
        None => Err(Refusal::Parameter(0)),
    };
    let length = expected.as_ref().map_or(40, String::len);
    for room in [0, length - 1, length + chance.below(50), length] {
        let answer = write(chance, &tree, room, &expected)?;
        tally.also("write", answer, 1);
    }
    let told = |fault: String| format!("{}{fault}", shown(&tree));
    let typed = tree.newick();
    if typed != expected.clone().map(String::into_bytes) {
        return Err(told(format!("\nexpected: {expected:?}\nthe wrapper: {typed:?}")));
    }
    let (Some(ages), Ok(text)) = (ages, expected) else {
        return Ok(refused(5));
    };
    shaped(sample, &ages, &text).map_err(told)?;
    read(chance, tally, text.as_bytes())?;
    read_back(sample, &text).map_err(told)?;
    Ok("given")
}

/// That any reader of Newick takes the text, with this tree's shape and lengths, and that the Rust writes the same shape.
fn shaped(sample: &Sample, ages: &[u64], text: &str) -> Compared<()> {
    let nodes = general::read(text).ok_or(format!(", no Newick: {text}"))?;
    if !general::are_of(&nodes, &sample.pairs, ages, sample.root()) {
        return Err(format!(", another tree's Newick: {text}"));
    }
    let rust = rust_tree(sample).to_newick(|tip| tip.to_string());
    if bare(&rust) == bare(text) { Ok(()) } else { Err(format!("\nthe Rust: {rust}\nthe port: {text}")) }
}

/// A text without its lengths.
fn bare(text: &str) -> String {
    let mut length = false;
    let shape = |byte: &char| {
        length = *byte == ':' || length && !matches!(byte, ',' | ')' | ';');
        !length
    };
    text.chars().filter(shape).collect()
}

/// That a copy holds the tree numbered in the order in which its parentheses close, which is the tree itself where it was
/// numbered so, and the printed ages less the youngest tip's.
fn read_back(sample: &Sample, text: &str) -> Compared<()> {
    let closing = sample.closing();
    let ages: Vec<u64> = closing.heights.iter().filter_map(|&height| thousandths(height)).collect();
    let youngest = ages[..closing.tips()].iter().min().copied().unwrap_or(0);
    let read = newick::read(text.as_bytes());
    let same = read.as_ref().is_ok_and(|read| {
        read.pairs == closing.pairs && read.ages.iter().zip(&ages).all(|(read, age)| read + youngest == *age)
    });
    if same { Ok(()) } else { Err(format!("\nread back: {read:?}")) }
}

/// Slices that may be no tree's, and any room: 1 to 4 as for every call, then 5, then 10.
pub fn wrong(chance: &mut Chance, _: &mut Tally) -> Compared<&'static str> {
    let tree = wrong_tree(chance);
    let expected = judged(&tree).and_then(|_| {
        let ages: Option<Vec<u64>> = tree.heights.iter().map(|&height| thousandths(height)).collect();
        ages.map(|ages| written(&tree.pairs, &ages, tree.root)).ok_or(Refusal::Parameter(0))
    });
    let room = chance.pick(&[0, 0, 17, 40, 400, 4000]);
    write(chance, &tree, room, &expected)
}
