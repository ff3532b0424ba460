//! Damage to the bytes of a state file: what a wire, an editor or a wrong writer may do to it.

use crate::chance::Chance;
use crate::statefile::LONGEST;

/// Values that stand at the ends of what a line takes, or beside it.
const VALUES: [&[u8]; 40] = [
    b"",
    b"0",
    b"00",
    b"01",
    b"1",
    b"2",
    b"+1",
    b"-1",
    b" 1",
    b"1 ",
    b"9",
    b"10",
    b"1e3",
    b"0x1",
    b"65534",
    b"65535",
    b"65536",
    b"065535",
    b"99999",
    b"2047",
    b"2048",
    b"2049",
    b"2297",
    b"4294967295",
    b"4294967296",
    b"9999999999",
    b"99999999999",
    b"18446744073709551615",
    b"18446744073709551616",
    b"0000000000000000",
    b"8000000000000000",
    b"7ff0000000000000",
    b"7ff8000000000001",
    b"fff0000000000000",
    b"3FF0000000000000",
    b"3ff000000000000",
    b"3ff00000000000000",
    b"3ff000000000000g",
    b"nodeheight",
    b"TipAge",
];

/// The bytes with one to three damages; at times they come out as they were.
pub fn damaged(chance: &mut Chance, file: &[u8]) -> Vec<u8> {
    let mut bytes = file.to_vec();
    for _ in 0..chance.pick(&[1, 1, 1, 2, 3]) {
        damage(chance, &mut bytes);
    }
    bytes
}

fn damage(chance: &mut Chance, bytes: &mut Vec<u8>) {
    if bytes.is_empty() {
        bytes.push(chance.word() as u8);
        return;
    }
    let at = chance.below(bytes.len());
    match chance.below(14) {
        0 => bytes[at] = chance.word() as u8,
        1 => bytes[at] ^= 1 << chance.below(8),
        2 => bytes[at] = chance.pick(b"0123456789abcdef=,\n"),
        3 => {
            bytes.remove(at);
        }
        4 => bytes.insert(at, chance.pick(b"0123456789af=,\n\r +-")),
        5 => bytes.truncate(at),
        6 => {
            bytes.pop();
        }
        7 => {
            bytes.extend_from_slice(chance.pick(&[b"\n" as &[u8], b"0", b"height=0000000000000000\n", b"\0"]))
        }
        8 => lines(chance, bytes, |chance, lines, at| {
            let other = chance.below(lines.len());
            lines.swap(at, other);
        }),
        9 => lines(chance, bytes, |_, lines, at| {
            lines.remove(at);
        }),
        10 => lines(chance, bytes, |_, lines, at| lines.insert(at, lines[at].clone())),
        11 | 12 => lines(chance, bytes, |chance, lines, at| value(chance, &mut lines[at])),
        _ => longer(chance, bytes),
    }
}

/// Takes the text apart at each byte 10, changes a line by chance, and puts it together.
fn lines(chance: &mut Chance, bytes: &mut Vec<u8>, change: fn(&mut Chance, &mut Vec<Vec<u8>>, usize)) {
    let mut lines: Vec<Vec<u8>> = bytes.split(|&byte| byte == 10).map(<[u8]>::to_vec).collect();
    let few = lines.len().min(9);
    let at = if chance.once_in(2) { chance.below(few) } else { chance.below(lines.len()) };
    change(chance, &mut lines, at);
    *bytes = lines.join(&10);
}

/// Another value for a line, or for one of its parts.
fn value(chance: &mut Chance, line: &mut Vec<u8>) {
    let from = line.iter().position(|&byte| byte == b'=').map_or(0, |place| place + 1);
    let commas: Vec<usize> = (from..line.len()).filter(|&i| line[i] == b',').collect();
    let part = chance.below(commas.len() + 1);
    let start = if part == 0 { from } else { commas[part - 1] + 1 };
    let end = commas.get(part).copied().unwrap_or(line.len());
    line.splice(start..end, chance.pick(&VALUES).iter().copied());
}

/// Bytes after the end: a few, or up to the greatest number and past it.
fn longer(chance: &mut Chance, bytes: &mut Vec<u8>) {
    let length = match chance.below(16) {
        0 => LONGEST + 1,
        1 => LONGEST,
        2 => LONGEST + chance.below(1000),
        _ => bytes.len() + chance.below(40),
    };
    let byte = chance.pick(b"0\n\0,");
    bytes.resize(length.max(bytes.len()), byte);
}
