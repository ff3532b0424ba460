//! The state file.

use crate::exports;

/// More than any answer has: three lines, a ratio, a root, 2,047 pairs and 4,095 heights.
pub const LONGEST_ANSWER: usize = 131_072;

/// The text that answers a state file of any bytes.
pub fn answer(file: &[u8]) -> Vec<u8> {
    let mut text = vec![0; LONGEST_ANSWER];
    let length = exports::rove_answer(file, &mut text);
    text.truncate(length);
    text
}
