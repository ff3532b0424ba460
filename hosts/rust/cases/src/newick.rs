//! Newick copies by the words of the request alone: a tree's copy as a string, and the tree of a copy, whose innermost pairs
//! are replaced one by one.

#[cfg(test)]
mod begins;
pub mod general;
mod spelling;
pub mod texts;

use crate::shapes::NONE;
use std::fmt::Write;

/// As many tips as a copy may have.
const MOST_TIPS: usize = 2048;

/// The root's age is below it, in thousandths.
const AGES_END: u128 = 1 << 53;

/// The tree of a copy: its pairs, and its ages in thousandths above the youngest tip.
#[derive(Clone, Debug, PartialEq, Eq)]
pub struct Newick {
    pub pairs: Vec<u16>,
    pub ages: Vec<u64>,
}

/// The copy of pairs and of ages in thousandths.
pub fn written(pairs: &[u16], ages: &[u64], root: usize) -> String {
    let mut text = String::new();
    put(&mut text, pairs, ages, root);
    text.push(';');
    text
}

/// A node and what is below it.
fn put(text: &mut String, pairs: &[u16], ages: &[u64], node: usize) {
    if pairs[2 * node] == NONE {
        write!(text, "{node}").expect("text");
        return;
    }
    for (side, before) in ['(', ','].into_iter().enumerate() {
        let child = usize::from(pairs[2 * node + side]);
        let length = ages[node] - ages[child];
        text.push(before);
        put(text, pairs, ages, child);
        write!(text, ":{}.{:03}", length / 1000, length % 1000).expect("text");
    }
    text.push(')');
}

/// The tree of a copy, or the place of the text's fault.
pub fn read(text: &[u8]) -> Result<Newick, usize> {
    spelling::check(text)?;
    let text = str::from_utf8(text).expect("digits and marks");
    tree(&closed(text)).ok_or(text.len())
}

/// A branch: a tip's number, or the letter p and the number of a pair that was closed; and a length in thousandths.
struct Branch {
    child: String,
    length: u128,
}

/// The pairs of a well-spelled text as they close. Each is taken out of the text, and its name put there.
fn closed(text: &str) -> Vec<[Branch; 2]> {
    let mut pairs = Vec::new();
    let mut left = String::new();
    for part in text.split_inclusive(')').filter(|part| part.ends_with(')')) {
        left.push_str(part);
        let open = left.rfind('(').expect("an open pair");
        let inner = &left[open + 1..left.len() - 1];
        let (first, second) = inner.split_once(',').expect("two branches");
        let pair = [first, second].map(branch);
        left.truncate(open);
        write!(left, "p{}", pairs.len()).expect("text");
        pairs.push(pair);
    }
    pairs
}

fn branch(text: &str) -> Branch {
    let (child, length) = text.split_once(':').expect("a length");
    // One that is too long to be a number stands for 2^100.
    let length = length.replace('.', "").parse().unwrap_or(1 << 100);
    Branch { child: child.into(), length }
}

/// The tree of pairs as they close, if its tips are numbered from 0, are not too many, and its root is not too old.
fn tree(pairs: &[[Branch; 2]]) -> Option<Newick> {
    let tips = pairs.len() + 1;
    if tips > MOST_TIPS {
        return None;
    }
    let mut nodes = vec![[NONE; 2]; tips];
    let mut below = vec![0; tips];
    let mut named = Vec::with_capacity(tips);
    for pair in pairs {
        let mut children = [0; 2];
        for (child, branch) in children.iter_mut().zip(pair) {
            *child = match branch.child.strip_prefix('p') {
                Some(pair) => tips + pair.parse::<usize>().expect("a pair's number"),
                None => branch.child.parse().ok().filter(|&tip: &usize| tip < tips)?,
            };
            named.push(*child);
        }
        let reach = |side: usize| below[children[side]] + pair[side].length;
        below.push(reach(0).max(reach(1)));
        nodes.push(children.map(|child| child as u16));
    }
    named.sort_unstable();
    let each_once = named.into_iter().eq(0..2 * tips - 2);
    let age = *below.last().expect("a root");
    (each_once && age < AGES_END).then(|| dated(nodes, pairs, age))
}

/// The ages of nodes from the root's downwards.
fn dated(nodes: Vec<[u16; 2]>, pairs: &[[Branch; 2]], root: u128) -> Newick {
    let tips = pairs.len() + 1;
    let mut ages = vec![root as u64; nodes.len()];
    for (node, pair) in pairs.iter().enumerate().rev() {
        for (branch, child) in pair.iter().zip(nodes[tips + node]) {
            ages[usize::from(child)] = ages[tips + node] - branch.length as u64;
        }
    }
    Newick { pairs: nodes.concat(), ages }
}

#[cfg(test)]
mod tests {
    use super::{Newick, read, written};
    use crate::shapes::{NONE, Sample};

    fn tree(pairs: &[u16], ages: &[u64]) -> Result<Newick, usize> {
        Ok(Newick { pairs: [&vec![NONE; ages.len() + 1], pairs].concat(), ages: ages.to_vec() })
    }

    #[test]
    fn trees() {
        let text = "((0:1.000,1:1.000):1.000,2:2.000);";
        assert_eq!(read(text.as_bytes()), tree(&[0, 1, 3, 2], &[0, 0, 0, 1000, 2000]));
        let text = b"((0:1.000,1:1.000):1.000,(2:1.000,3:1.000):1.000);";
        assert_eq!(read(text), tree(&[0, 1, 2, 3, 4, 5], &[0, 0, 0, 0, 1000, 1000, 2000]));
        assert_eq!(read(b"(0:1.000,1:1.999);"), tree(&[0, 1], &[999, 0, 1999]));
        let old = (1 << 53) - 1;
        assert_eq!(read(b"(0:9007199254740.991,1:0.000);"), tree(&[0, 1], &[0, old, old]));
    }

    #[test]
    fn places() {
        let rows: [(&str, usize); 24] = [
            ("", 0),
            ("0;", 0),
            ("(", 1),
            ("((((", 4),
            ("(0:1.000", 8),
            ("(0:1.000)", 8),
            ("(00:1.000,1:1.000);", 2),
            ("(0:01.000,1:1.000);", 4),
            ("(0:.500,1:1.000);", 3),
            ("(0:1,1:1);", 4),
            ("(0:1.00,1:1.000);", 7),
            ("(0:1.0000,1:1.000);", 8),
            ("(0,1);", 2),
            ("(0:1.000,1:1.000):1.000;", 17),
            ("(0:1.000,1:1.000,2:1.000);", 16),
            ("(0:1.000,1:1.000);\n", 18),
            ("(5:1.000,5:1.000)x", 17),
            ("(1:1.000,2:1.000);", 18),
            ("(0:1.000,0:1.000);", 18),
            ("(0:1.000,5:1.000);", 18),
            ("(0:1.000,18446744073709551617:1.000);", 37),
            ("(0:9007199254740.992,1:0.000);", 30),
            ("(0:4503599627370.496,(1:4503599627370.496,2:0.000):4503599627370.496);", 70),
            ("(0:340282366920938463463374607431768211456.000,1:0.000);", 56),
        ];
        for (text, place) in rows {
            assert_eq!(read(text.as_bytes()), Err(place), "{text}");
        }
    }

    #[test]
    fn sizes() {
        for (tips, taken) in [(2, true), (2047, true), (2048, true), (2049, false), (3001, false)] {
            for sample in [Sample::comb(tips, true), Sample::comb(tips, false), Sample::balanced(tips)] {
                let sample = sample.closing();
                let ages: Vec<u64> = sample.heights.iter().map(|height| (height * 1000.0) as u64).collect();
                let text = written(&sample.pairs, &ages, sample.root());
                let newick = Newick { pairs: sample.pairs, ages };
                let wrong = text.replace(';', "x");
                assert_eq!(read(text.as_bytes()), if taken { Ok(newick) } else { Err(text.len()) });
                assert_eq!(read(wrong.as_bytes()), Err(text.len() - 1));
            }
        }
    }

    #[test]
    fn nests() {
        let text = "(".repeat(100_000);
        assert_eq!(read(text.as_bytes()), Err(100_000));
        assert_eq!(read(format!("{text}0:1.000,1:1.000):1.000)").as_bytes()), Err(100_022));
    }
}
