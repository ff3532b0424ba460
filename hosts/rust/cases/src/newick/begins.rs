//! The place of a fault by its definition: a byte is forbidden where no well-spelled text begins with the bytes up to it.
//! Whether one does is found by trying each way in which the grammar can go on. For short texts.

use super::spelling::check;

/// What stands in a text one after another: bytes, and the letters d for a digit, m for one or more, n for a number, t for a
/// node, p for a pair.
const PAIR: &str = "(t:n.ddd,t:n.ddd)";

/// Whether some text of these parts begins with the bytes.
fn begins(parts: &str, bytes: &[u8]) -> bool {
    let Some((&byte, rest)) = bytes.split_first() else {
        return true;
    };
    let Some(part) = parts.chars().next() else {
        return false;
    };
    let after = &parts[1..];
    let instead = |first: &str| begins(&format!("{first}{after}"), bytes);
    match part {
        't' => instead("p") || instead("n"),
        'p' => instead(PAIR),
        'n' => instead("0") || byte != b'0' && instead("m"),
        'm' => instead("d") || instead("dm"),
        'd' => byte.is_ascii_digit() && begins(after, rest),
        other => other as u32 == u32::from(byte) && begins(after, rest),
    }
}

/// The first byte with which no text goes on, or the text's length.
fn place(text: &[u8]) -> usize {
    (0..text.len()).find(|&at| !begins("p;", &text[..=at])).unwrap_or(text.len())
}

/// Both ways on a beginning and all bytes of an alphabet after it, up to so many.
fn same(text: &mut Vec<u8>, more: usize) -> u32 {
    if check(text).err().unwrap_or(text.len()) != place(text) {
        panic!("{}", text.escape_ascii());
    }
    let mut count = 1;
    for &byte in b"(),:;.01x" {
        if more > 0 {
            text.push(byte);
            count += same(text, more - 1);
            text.pop();
        }
    }
    count
}

#[test]
fn all_short_texts() {
    assert_eq!(same(&mut Vec::new(), 6), (9u32.pow(7) - 1) / 8);
}

#[test]
fn all_short_ends() {
    let beginnings = [
        "(0:1.000",
        "(10:10.000,",
        "(0:1.000,(1:1.000,2:1.00",
        "((0:1.000,1:1.000):1.000",
        "(0:1.000,1:1.000",
        "((0:1.000,1:1.000):1.000,2:2.000",
        "(0:1.000,(1:1.000,2:1.000):0.000",
        "((0:1.000,1:1.000):1.000,(2:0.100,3:1.111",
    ];
    for beginning in beginnings {
        same(&mut beginning.into(), 4);
    }
}
