//! Texts for the reader: copies of any ages, copies with other numbers in them, nests of any depth, and damaged ones.

use super::written;
use crate::chance::Chance;
use crate::shapes::Sample;

/// What the damages put into a text.
const ALPHABET: &[u8] = b"(),:;.0123456789 x\n\0";

/// Tip numbers past those of small copies, and past the ends of what holds them.
const TIPS: [&str; 12] = [
    "2046",
    "2047",
    "2048",
    "2049",
    "65534",
    "65535",
    "65536",
    "4294967296",
    "9007199254740992",
    "18446744073709551615",
    "18446744073709551616",
    "100000000000000000000",
];

/// Lengths about 2^52, 2^53, 2^64 and 2^128 thousandths, and about 2^53 and 2^64 whole ones.
const LENGTHS: [&str; 16] = [
    "0.000",
    "0.001",
    "4503599627370.495",
    "4503599627370.496",
    "4503599627370.497",
    "9007199254740.990",
    "9007199254740.991",
    "9007199254740.992",
    "9007199254740.993",
    "9007199254741.000",
    "9007199254740992.000",
    "18446744073709551.615",
    "18446744073709551.616",
    "18446744073709551616.000",
    "340282366920938463463374607431768211.456",
    "340282366920938463463374607431768211456.000",
];

/// A copy of so many tips, with ages of one size or another.
pub fn copy(chance: &mut Chance, tips: usize) -> String {
    let sample = Sample::tree(chance, tips).closing();
    let step = chance.pick(&[1, 2, 1000, 100_000, 1 << 30, (1 << 52) / tips]);
    let mut ages = vec![0; sample.nodes()];
    for node in 0..sample.nodes() {
        let lower = if node < tips {
            0
        } else {
            let (a, b) = sample.pair(node);
            ages[a].max(ages[b])
        };
        ages[node] = if chance.once_in(4) { lower } else { lower + chance.below(step) as u64 };
    }
    written(&sample.pairs, &ages, sample.nodes() - 1)
}

/// A copy of a few tips with one of its numbers, or two, at the ends of what is taken, or of many digits.
pub fn numbered(chance: &mut Chance) -> String {
    let tips = chance.between(2, 7);
    let copy = copy(chance, tips);
    // A tip's number for each, and a length for each node but the root.
    let numbers = 3 * tips - 2;
    let chosen = [chance.below(numbers), chance.below(numbers)];
    let (mut text, mut at) = (String::new(), 0);
    for part in copy.split_inclusive(['(', ')', ',', ':', ';']) {
        let (own, mark) = part.split_at(part.len() - 1);
        if !own.is_empty() {
            text += &if chosen.contains(&at) { other(chance, own) } else { own.into() };
            at += 1;
        }
        text += mark;
    }
    text
}

/// Another number in the place of a tip's or a length.
fn other(chance: &mut Chance, own: &str) -> String {
    let length = own.contains('.');
    match chance.below(8) {
        0 => digits(chance) + if length { ".000" } else { "" },
        1 => format!("0{own}"),
        2 => format!("{own}{}", chance.below(10)),
        3 | 4 => around(chance, own),
        _ if length => chance.pick(&LENGTHS).into(),
        5 => chance.below(9).to_string(),
        _ => chance.pick(&TIPS).into(),
    }
}

/// A number of 1 to 400 digits, at times the first a zero.
fn digits(chance: &mut Chance) -> String {
    let most = chance.pick(&[4, 24, 400]);
    let count = chance.between(1, most);
    let first = if chance.once_in(8) { '0' } else { '1' };
    let digit = |_| char::from(b'0' + chance.below(10) as u8);
    std::iter::once(first).chain((1..count).map(digit)).collect()
}

/// A number that is the same one again where too few bits hold it.
fn around(chance: &mut Chance, own: &str) -> String {
    let number: u128 = own.replace('.', "").parse().expect("a number");
    let number = number + (1 << chance.pick(&[8, 11, 16, 32, 53, 64]));
    if own.contains('.') { format!("{}.{:03}", number / 1000, number % 1000) } else { number.to_string() }
}

/// A comb of so many tips in which the lengths on the way to the lowest add up to so many thousandths.
pub fn summed(chance: &mut Chance, tips: usize, sum: u64) -> String {
    let mut cuts: Vec<u64> = (2..tips).map(|_| chance.below(sum as usize) as u64).collect();
    cuts.extend([0, sum]);
    cuts.sort_unstable();
    let mut text = "0".to_string();
    for (tip, ends) in (1..tips).zip(cuts.windows(2)) {
        let length = ends[1] - ends[0];
        let long = format!("{text}:{}.{:03}", length / 1000, length % 1000);
        text =
            if chance.once_in(2) { format!("({long},{tip}:0.000)") } else { format!("({tip}:0.000,{long})") };
    }
    text + ";"
}

/// A text of so many parentheses, each in the one before it and on either side there, of which so many close; after that
/// comes the end that is given.
pub fn nest(chance: &mut Chance, levels: usize, closing: usize, end: &str) -> String {
    let first: Vec<bool> = (0..levels).map(|_| chance.once_in(2)).collect();
    let mut text = String::new();
    for (tip, &first) in first.iter().enumerate() {
        text.push('(');
        if !first {
            text += &format!("{tip}:0.000,");
        }
    }
    text += &levels.to_string();
    for (tip, &first) in first.iter().enumerate().rev().take(closing) {
        text += ":0.001";
        if first {
            text += &format!(",{tip}:0.000");
        }
        text.push(')');
    }
    text + end
}

/// A text with one to three damages.
pub fn damaged(chance: &mut Chance, text: &[u8]) -> Vec<u8> {
    let mut bytes = text.to_vec();
    for _ in 0..chance.pick(&[1, 1, 1, 2, 3]) {
        damage(chance, &mut bytes);
    }
    bytes
}

fn damage(chance: &mut Chance, bytes: &mut Vec<u8>) {
    let at = chance.below(bytes.len() + 1);
    let end = chance.between(at, bytes.len().min(at + 24));
    let byte = chance.pick(ALPHABET);
    match chance.below(8) {
        0 if at < bytes.len() => bytes[at] = byte,
        1 if at < bytes.len() => drop(bytes.remove(at)),
        2 => bytes.truncate(at),
        3 => {
            let part = bytes[at..end].to_vec();
            let to = chance.below(bytes.len() + 1);
            bytes.splice(to..to, part);
        }
        4 => drop(bytes.drain(at..end)),
        5 => exchange(chance, bytes),
        6 => number(chance, bytes),
        _ => bytes.insert(at, byte),
    }
}

/// Two parts between marks change places.
fn exchange(chance: &mut Chance, bytes: &mut Vec<u8>) {
    let mut parts: Vec<Vec<u8>> =
        bytes.split_inclusive(|byte| b"(),:;".contains(byte)).map(<[u8]>::to_vec).collect();
    if !parts.is_empty() {
        let (one, other) = (chance.below(parts.len()), chance.below(parts.len()));
        parts.swap(one, other);
    }
    *bytes = parts.concat();
}

/// One digit is another.
fn number(chance: &mut Chance, bytes: &mut [u8]) {
    let digits: Vec<usize> = (0..bytes.len()).filter(|&at| bytes[at].is_ascii_digit()).collect();
    if !digits.is_empty() {
        bytes[chance.pick(&digits)] = b'0' + chance.below(10) as u8;
    }
}
