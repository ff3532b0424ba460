//! `rove_answer` on any bytes, with answer slices of all lengths about that of the text.

use cases::answers::in_form;
use cases::damage::damaged;
use cases::{Chance, Guarded, Kind, Progress, Sample, StateFile, shapes};
use rove::{LONGEST_ANSWER, exports};

pub fn damage(count: u64, seed: u64) -> Result<String, String> {
    let mut chance = Chance::new(seed);
    let mut progress = Progress::new("files", count);
    let (mut malformed, mut refused, mut answered) = (0, 0, 0);
    for done in 1..=count {
        let file = bytes(&mut chance);
        let text =
            answer(&mut chance, &file).map_err(|fault| format!("{fault}\nfile:\n{}", file.escape_ascii()))?;
        if text.starts_with(b"answer=refused,9,") {
            malformed += 1;
        } else if text.starts_with(b"answer=refused,") {
            refused += 1;
        } else {
            answered += 1;
        }
        progress.done(done);
    }
    Ok(format!(
        "damage: {count} files: {malformed} refused with the line that the host's own reading finds wrong, {refused} \
         refused otherwise, {answered} answered; guards and lengths kept"
    ))
}

/// A file, mostly a damaged one, or any bytes.
fn bytes(chance: &mut Chance) -> Vec<u8> {
    let tips = shapes::tips(chance);
    let file = file(chance, tips).write();
    match chance.below(16) {
        0 => (0..chance.below(400)).map(|_| chance.word() as u8).collect(),
        1 => (0..chance.below(400)).map(|_| chance.pick(b"0123456789abcdef=,\npairheighted")).collect(),
        2 => file,
        _ => damaged(chance, &file),
    }
}

fn file(chance: &mut Chance, tips: usize) -> StateFile {
    let sample = Sample::tree(chance, tips);
    let kind = chance.pick(&Kind::ALL);
    let internal = sample.pairs.chunks_exact(2).skip(tips);
    StateFile {
        draws: chance.pick(&[1, 2, 65_535, 65_535]),
        state: chance.state(),
        kind,
        node: if kind.uses_node() { chance.below(sample.nodes()) as u64 } else { 0 },
        tuning: if kind.uses_tuning() { chance.unit().to_bits() } else { 0 },
        tips: tips as u64,
        pairs: internal.map(|pair| (pair[0], pair[1])).collect(),
        heights: sample.heights.iter().map(|height| height.to_bits()).collect(),
    }
}

/// The answer to a file, which has to be one to what a reading in the host finds there, a 9 with the line where that finds
/// one at fault and no 9 where it finds none; after it was asked for with slices of several lengths.
fn answer(chance: &mut Chance, file: &[u8]) -> Result<Vec<u8>, String> {
    let file = Guarded::new(file, |word| word as u8, chance);
    let mut long = vec![0; LONGEST_ANSWER];
    let length = exports::rove_answer(file.items(), &mut long);
    let text = long[..length].to_vec();
    in_form(&text, &StateFile::read(file.items()))
        .map_err(|fault| format!("{fault}: {}", text.escape_ascii()))?;
    for room in [0, length - 1, length, length + 1, chance.below(length), length + chance.below(50)] {
        let mut space = Guarded::any(room, |word| word as u8, chance);
        let given = exports::rove_answer(file.items(), space.items_mut());
        let expected = if room < length { 0 } else { length };
        if given != expected || !space.kept_but(expected) || space.items()[..expected] != text[..expected] {
            return Err(format!(
                "an answer of {length} bytes in a slice of {room}: {given} returned, or other bytes written"
            ));
        }
    }
    if file.kept_but(0) { Ok(text) } else { Err("the file was written to".into()) }
}
