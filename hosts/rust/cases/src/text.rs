//! Numbers as the state file has them.

/// Decimal digits without leading zeros, up to a greatest number.
pub fn decimal(text: &[u8], greatest: u64) -> Option<u64> {
    let leading = text.len() > 1 && text[0] == b'0';
    if text.is_empty() || leading || text.len() > 10 || !text.iter().all(u8::is_ascii_digit) {
        return None;
    }
    let number = text.iter().fold(0, |sum, digit| 10 * sum + u64::from(digit - b'0'));
    (number <= greatest).then_some(number)
}

/// Sixteen lower-case hexadecimal digits.
pub fn hexadecimal(text: &[u8]) -> Option<u64> {
    if text.len() != 16 {
        return None;
    }
    let mut word = 0;
    for &digit in text {
        let value = match digit {
            b'0'..=b'9' => digit - b'0',
            b'a'..=b'f' => digit - b'a' + 10,
            _ => return None,
        };
        word = word << 4 | u64::from(value);
    }
    Some(word)
}

/// The parts between commas, where there are so many.
pub fn parts<const N: usize>(text: &[u8]) -> Option<[&[u8]; N]> {
    let mut rest = text.split(|&byte| byte == b',');
    let mut parts: [&[u8]; N] = [&[]; N];
    for part in &mut parts {
        *part = rest.next()?;
    }
    rest.next().is_none().then_some(parts)
}

const DIGITS: [u8; 16] = *b"0123456789abcdef";

pub fn put_decimal(text: &mut Vec<u8>, number: u64) {
    let mut digits = [0; 20];
    let mut at = digits.len();
    let mut rest = number;
    loop {
        at -= 1;
        digits[at] = b'0' + (rest % 10) as u8;
        rest /= 10;
        if rest == 0 {
            break;
        }
    }
    text.extend_from_slice(&digits[at..]);
}

pub fn put_hexadecimal(text: &mut Vec<u8>, word: u64) {
    text.extend((0..16).rev().map(|i| DIGITS[(word >> (4 * i) & 15) as usize]));
}
