//! Newick copies: the two functions beside a reading of the request in the host, in slices with guards; and the shape that is
//! written beside the Rust's.

use crate::copies;
use crate::oracle::Compared;
use crate::plain::shown;
use crate::port::noisy;
use crate::tally::Tally;
use crate::texts;
use crate::trees::{answered, called};
use cases::newick::{self, Newick};
use cases::{Chance, Guarded};
use rove::{NewickTree, Record, Refusal, Tree, exports};

/// A trial gives the answer of its call, and counts the others that it makes.
pub type Trial = fn(&mut Chance, &mut Tally) -> Compared<&'static str>;

const TRIALS: [(&str, Trial); 8] = [
    ("a copy", copies::copy),
    ("a wrong tree's copy", copies::wrong),
    ("a text", texts::whole),
    ("a damaged text", texts::damaged),
    ("a damaged text", texts::damaged),
    ("a text of other numbers", texts::numbered),
    ("a text of a sum", texts::summed),
    ("a nest", texts::nest),
];

/// So many trees and texts; before them all short texts, after them large ones.
pub fn compare(count: u64, seed: u64) -> Compared<Tally> {
    let mut chance = Chance::new(seed);
    let mut tally = Tally::new("newick", count);
    texts::short(&mut Vec::new(), if count < 100_000 { 5 } else { 6 }, &mut tally)
        .map_err(|fault| format!("a short text differs: {fault}"))?;
    while tally.total() < count {
        let (name, trial) = chance.pick(&TRIALS);
        let answer = trial(&mut chance, &mut tally).map_err(|fault| format!("{name} differs: {fault}"))?;
        tally.count(name, answer);
    }
    copies::large(&mut chance, &mut tally).map_err(|fault| format!("a large copy differs: {fault}"))?;
    texts::large(&mut chance, &mut tally, count).map_err(|fault| format!("a large text differs: {fault}"))?;
    Ok(tally)
}

/// The writer with room for so many bytes, beside what it should give where there is enough.
pub fn write(
    chance: &mut Chance,
    tree: &Tree,
    room: usize,
    expected: &Result<String, Refusal>,
) -> Compared<&'static str> {
    let mut out = Guarded::any(room, |word| word as u8, chance);
    let (state, allowance) = (chance.words(), chance.word());
    let record = noisy(chance, state, tree.root, allowance);
    let call = called(record, |words| {
        exports::rove_write_newick(&tree.pairs, &tree.parents, &tree.heights, out.items_mut(), words)
    });
    let told = |fault: String| format!("{}, {room} bytes{fault}", shown(tree));
    let (answer, text) = match expected {
        Ok(text) if text.len() <= room => {
            call.is(0, &answered(0, 0, 0, text.len() as u64, 0)).map_err(told)?;
            ("given", text.as_str())
        }
        Ok(_) => (call.is_refused(Refusal::Room).map_err(told)?, ""),
        Err(why) => (call.is_refused(*why).map_err(told)?, ""),
    };
    if out.items().starts_with(text.as_bytes()) && out.kept_but(text.len()) {
        return Ok(answer);
    }
    Err(told(format!("\nexpected: {text}\nthe port: {}", out.items().escape_ascii())))
}

/// The reader on a text, in slices that are long enough, too short or empty, and by the wrapper; and what that gives, written
/// again.
pub fn read(chance: &mut Chance, tally: &mut Tally, text: &[u8]) -> Compared<&'static str> {
    let expected = newick::read(text);
    let told = |fault: String| format!("{}{fault}", shown_text(text));
    let mut given = "";
    for rooms in rooms(chance, &expected) {
        let answer = read_into(chance, text, rooms, &expected)
            .map_err(|fault| told(format!(", room for {rooms:?}{fault}")))?;
        tally.also("read", answer, 1);
        given = answer;
    }
    let typed = rove::read_newick(text);
    let same = match (&expected, &typed) {
        (Ok(Newick { pairs, ages }), Ok(typed)) => {
            *pairs == typed.pairs
                && *ages == typed.ages
                && newick::written(&typed.pairs, &typed.ages, ages.len() - 1).as_bytes() == text
        }
        (Err(place), Err(typed)) => *typed == Refusal::Place(*place as u64),
        _ => false,
    };
    if same { Ok(given) } else { Err(told(format!("\nexpected: {expected:?}\nthe wrapper: {typed:?}"))) }
}

/// Lengths of slices for pairs and ages, the last long enough.
fn rooms(chance: &mut Chance, expected: &Result<Newick, usize>) -> Vec<[usize; 2]> {
    let [more, other] = [chance.below(40), chance.below(20)];
    let Ok(tree) = expected else {
        return vec![[0, 0], [more, other]];
    };
    let nodes = tree.ages.len();
    let [pairs, ages] = [2 * nodes, nodes];
    vec![[0, 0], [pairs - 1, ages], [pairs, ages - 1], [pairs + more, ages + other], [pairs, ages]]
}

fn read_into(
    chance: &mut Chance,
    text: &[u8],
    rooms: [usize; 2],
    expected: &Result<Newick, usize>,
) -> Compared<&'static str> {
    let text = Guarded::new(text, |word| word as u8, chance);
    let mut pairs = Guarded::any(rooms[0], |word| word as u16, chance);
    let mut ages = Guarded::any(rooms[1], |word| word, chance);
    let call = called(Record(chance.words()), |words| {
        exports::rove_read_newick(text.items(), pairs.items_mut(), ages.items_mut(), words)
    });
    let none = Newick { pairs: Vec::new(), ages: Vec::new() };
    let (answer, tree) = match expected {
        Ok(tree) if tree.pairs.len() <= rooms[0] && tree.ages.len() <= rooms[1] => {
            call.is(0, &answered(0, 0, 0, tree.ages.len() as u64, 0))?;
            ("given", tree)
        }
        Ok(_) => (call.is_refused(Refusal::Room)?, &none),
        Err(place) => (call.is_refused(Refusal::Place(*place as u64))?, &none),
    };
    let same = pairs.items().starts_with(&tree.pairs) && ages.items().starts_with(&tree.ages);
    if same && text.kept_but(0) && pairs.kept_but(tree.pairs.len()) && ages.kept_but(tree.ages.len()) {
        return Ok(answer);
    }
    let given = NewickTree { pairs: pairs.items().to_vec(), ages: ages.items().to_vec() };
    Err(format!("\nexpected: {tree:?}\nthe port, or what is about its slices: {given:?}"))
}

/// A text for a report, of a long one its beginning.
pub fn shown_text(text: &[u8]) -> String {
    let first = &text[..text.len().min(2000)];
    format!("{} bytes: {}", text.len(), first.escape_ascii())
}
