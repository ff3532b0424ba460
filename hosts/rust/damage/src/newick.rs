//! Newick copies: the writer on slices that may be no tree's, the reader on any bytes, each with lent slices of lengths about
//! that of the result and at times with too short a record.

use crate::trees::slices;
use cases::newick::{self, Newick, texts};
use cases::{Chance, Guarded, Progress, shapes};
use rove::{LONGEST_NEWICK, WORDS, exports, word};

pub fn damage(count: u64, seed: u64) -> Result<String, String> {
    let mut chance = Chance::new(seed);
    let mut progress = Progress::new("copies", count);
    let (mut written, mut read) = (0, 0);
    for done in 1..=count {
        written += u64::from(write(&mut chance)?);
        let text = bytes(&mut chance);
        read += u64::from(
            reads(&mut chance, &text).map_err(|fault| format!("{fault}\ntext:\n{}", text.escape_ascii()))?,
        );
        progress.done(done);
    }
    Ok(format!(
        "damage: {count} copies of slices that may be no tree, {written} written; {count} texts, {read} read, the others \
         refused with the place that the host's own reading finds; guards and lengths kept"
    ))
}

/// A record of noise in which a root stands, at times one that is too short.
fn record(chance: &mut Chance, root: usize) -> Guarded<u64> {
    let mut words: [u64; WORDS] = chance.words();
    words[word::ROOT] = root as u64;
    let length = if chance.once_in(16) { chance.below(WORDS) } else { WORDS };
    Guarded::new(&words[..length], |word| word, chance)
}

/// That a record is as the call's code says: that of too few words is untouched.
fn in_order(record: &Guarded<u64>, code: u64) -> bool {
    match record.items() {
        words if words.len() < WORDS => code == 3 && record.kept_but(0),
        words => code != 3 && words[word::ANSWER] == code && record.guards_kept(),
    }
}

/// The number of a call that was refused, or else the code.
fn answer(record: &Guarded<u64>, code: u64) -> (u64, u64) {
    let kind = if code == 2 { record.items()[word::KIND] } else { 0 };
    (code, kind)
}

/// The copy of slices: whether they have one.
fn write(chance: &mut Chance) -> Result<bool, String> {
    let tips = shapes::tips(chance);
    let (pairs, parents, given, root) = slices(chance, tips);
    let pairs = Guarded::new(&pairs, |word| word as u16, chance);
    let parents = Guarded::new(&parents, |word| word as u16, chance);
    let heights = Guarded::new(&given, |word| (word >> 12) as f64, chance);
    let mut words = [0; WORDS];
    words[word::ROOT] = root as u64;
    let mut long = vec![0; LONGEST_NEWICK];
    let (a, b, x) = (pairs.items(), parents.items(), heights.items());
    let whole = exports::rove_write_newick(a, b, x, &mut long, &mut words);
    let length = if whole == 0 { words[word::FIRST] as usize } else { 40 };
    if whole == 0 && newick::read(&long[..length]).is_err() {
        return Err(format!("no copy was written: {}", long[..length].escape_ascii()));
    }
    for room in [0, length - 1, length, length + chance.below(50)] {
        let mut out = Guarded::any(room, |word| word as u8, chance);
        let mut record = record(chance, root);
        let code = exports::rove_write_newick(a, b, x, out.items_mut(), record.items_mut());
        let expected = if whole == 0 && room < length { (2, 10) } else { (whole, words[word::KIND]) };
        let written = if code == 0 { length } else { 0 };
        let same = out.kept_but(written) && out.items().starts_with(&long[..written]);
        if !same || !in_order(&record, code) || code != 3 && answer(&record, code) != expected {
            return Err(format!(
                "a copy of {length} bytes in {room}: {code} returned, or other bytes written"
            ));
        }
    }
    let same_heights = x.iter().map(|x| x.to_bits()).eq(given.iter().map(|x| x.to_bits()));
    if same_heights && heights.guards_kept() && pairs.kept_but(0) && parents.kept_but(0) {
        return Ok(whole == 0);
    }
    Err("the tree was written to".into())
}

/// A text, mostly a damaged copy, or any bytes.
fn bytes(chance: &mut Chance) -> Vec<u8> {
    let tips = shapes::tips(chance);
    match chance.below(16) {
        0 => (0..chance.below(400)).map(|_| chance.word() as u8).collect(),
        1 => (0..chance.below(400)).map(|_| chance.pick(b"(((),,::;.0011x")).collect(),
        2..8 => texts::copy(chance, tips).into_bytes(),
        8 => texts::numbered(chance).into_bytes(),
        _ => {
            let copy = texts::copy(chance, tips);
            texts::damaged(chance, copy.as_bytes())
        }
    }
}

/// Reads a text into several slices: whether it is a copy.
fn reads(chance: &mut Chance, text: &[u8]) -> Result<bool, String> {
    let expected = newick::read(text);
    let text = Guarded::new(text, |word| word as u8, chance);
    let nodes = expected.as_ref().map_or(3, |tree| tree.ages.len());
    let [more, other] = [chance.below(20), chance.below(20)];
    for rooms in [[0, 0], [2 * nodes - 1, nodes], [2 * nodes, nodes - 1], [2 * nodes + more, nodes + other]] {
        let mut pairs = Guarded::any(rooms[0], |word| word as u16, chance);
        let mut ages = Guarded::any(rooms[1], |word| word, chance);
        let mut record = record(chance, 0);
        let code =
            exports::rove_read_newick(text.items(), pairs.items_mut(), ages.items_mut(), record.items_mut());
        let fits = rooms[0] >= 2 * nodes && rooms[1] >= nodes;
        let result = match &expected {
            Ok(tree) if fits && code == 0 => tree,
            _ => &Newick { pairs: Vec::new(), ages: Vec::new() },
        };
        let right = match (&expected, answer(&record, code)) {
            (_, (3, _)) => true,
            (Ok(_), said) => said == if fits { (0, 0) } else { (2, 10) },
            (Err(place), said) => said == (2, 9) && record.items()[word::FIRST] == *place as u64,
        };
        let same = pairs.items().starts_with(&result.pairs) && ages.items().starts_with(&result.ages);
        let kept = pairs.kept_but(result.pairs.len()) && ages.kept_but(result.ages.len());
        if !right || !same || !kept || !in_order(&record, code) {
            return Err(format!("room for {rooms:?}: {code} returned, or other numbers written"));
        }
    }
    if text.kept_but(0) { Ok(expected.is_ok()) } else { Err("the text was written to".into()) }
}
