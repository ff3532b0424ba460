//! Texts for the reader, most of which are no copies.

use crate::newick::{read, shown_text};
use crate::oracle::Compared;
use crate::tally::Tally;
use crate::trees::called;
use cases::newick::{self, texts};
use cases::{Chance, Sample};
use rove::{Record, Refusal, WORDS, exports};

pub fn whole(chance: &mut Chance, tally: &mut Tally) -> Compared<&'static str> {
    let tips = if chance.once_in(500) { chance.between(61, 2048) } else { chance.between(2, 60) };
    let text = texts::copy(chance, tips);
    read(chance, tally, text.as_bytes())
}

pub fn damaged(chance: &mut Chance, tally: &mut Tally) -> Compared<&'static str> {
    let tips = if chance.once_in(4) { chance.between(9, 60) } else { chance.between(2, 8) };
    let copy = texts::copy(chance, tips);
    let text = texts::damaged(chance, copy.as_bytes());
    read(chance, tally, &text)
}

pub fn numbered(chance: &mut Chance, tally: &mut Tally) -> Compared<&'static str> {
    let text = texts::numbered(chance);
    read(chance, tally, text.as_bytes())
}

/// Sums about 2^53.
pub fn summed(chance: &mut Chance, tally: &mut Tally) -> Compared<&'static str> {
    let tips = chance.between(2, 24);
    let sum = (1 << 53) + chance.below(5) as u64 - 2;
    let text = texts::summed(chance, tips, sum);
    read(chance, tally, text.as_bytes())
}

/// What may come after the pairs that have closed, right or wrong.
const ENDS: [&str; 12] =
    ["", ":", ":0", ":0.00", ":0.000", ":0.000,", ":0.000)", ")", ",", ";", ":0.000,0:0.000)", ":0.000;"];

pub fn nest(chance: &mut Chance, tally: &mut Tally) -> Compared<&'static str> {
    let levels = if chance.once_in(200) { chance.between(2040, 2056) } else { chance.between(1, 12) };
    nest_of(chance, tally, levels)
}

fn nest_of(chance: &mut Chance, tally: &mut Tally, levels: usize) -> Compared<&'static str> {
    let closing = if chance.once_in(4) { 0 } else { chance.below(levels.min(30) + 1) };
    let end = chance.pick(&ENDS);
    let text = texts::nest(chance, levels, closing, end);
    read(chance, tally, text.as_bytes())
}

/// All texts of up to so many bytes, which are too few for a copy.
pub fn short(text: &mut Vec<u8>, more: usize, tally: &mut Tally) -> Compared<()> {
    let place = newick::read(text).expect_err("no copy is so short");
    let (mut pairs, mut ages) = ([7; 6], [7; 3]);
    let call =
        called(Record([7; WORDS]), |words| exports::rove_read_newick(text, &mut pairs, &mut ages, words));
    let answer = call
        .is_refused(Refusal::Place(place as u64))
        .map_err(|fault| format!("{}{fault}", shown_text(text)))?;
    if pairs != [7; 6] || ages != [7; 3] {
        return Err(format!("{}\nwritten: {pairs:?} {ages:?}", shown_text(text)));
    }
    tally.also("a short text", answer, 1);
    for &byte in b"(),:;.01x" {
        if more > 0 {
            text.push(byte);
            short(text, more - 1, tally)?;
            text.pop();
        }
    }
    Ok(())
}

/// Texts about the greatest number of tips, deep ones, and sums over many branches; for a million or more trials combs that
/// take long.
pub fn large(chance: &mut Chance, tally: &mut Tally, count: u64) -> Compared<()> {
    let mut sizes = vec![2047, 2048, 2049, 2050, 3001];
    if count >= 1_000_000 {
        sizes.push(5001);
    }
    for tips in sizes {
        for sample in [Sample::comb(tips, true), Sample::comb(tips, false), Sample::balanced(tips)] {
            faulty(chance, tally, &of_sample(&sample))?;
        }
    }
    for levels in [1, 2, 3, 2046, 2047, 2048, 2049, 2050, 2051, 3000, 100_000] {
        for _ in 0..6 {
            let answer = nest_of(chance, tally, levels)?;
            tally.also("a deep nest", answer, 1);
        }
        faulty(chance, tally, &"(".repeat(levels))?;
    }
    for levels in [2046, 2047, 2048, 3000] {
        let closed = texts::nest(chance, levels, levels, ";");
        faulty(chance, tally, &closed)?;
    }
    for tips in [200, 2048] {
        for sum in [(1 << 53) - 1, 1 << 53] {
            let text = texts::summed(chance, tips, sum);
            let answer = read(chance, tally, text.as_bytes())?;
            tally.also("a long sum", answer, 1);
        }
    }
    Ok(())
}

/// The text of a sample of any size, each height in whole thousandths.
fn of_sample(sample: &Sample) -> String {
    let ages: Vec<u64> = sample.heights.iter().map(|&height| (height * 1000.0) as u64).collect();
    newick::written(&sample.pairs, &ages, sample.root())
}

/// A text as it is, with another last byte, with one early in it, and without its last.
fn faulty(chance: &mut Chance, tally: &mut Tally, text: &str) -> Compared<()> {
    let (but_last, early) = (&text[..text.len() - 1], text.len().min(5));
    let [late, early] = [format!("{but_last}x"), format!("{}x{}", &text[..early], &text[early..])];
    for text in [text, &late, &early, but_last] {
        let answer = read(chance, tally, text.as_bytes())?;
        tally.also("a large text", answer, 1);
    }
    Ok(())
}
