//! The spelling of a copy, by descent: what has still to come stands on a stack, so that no text is too deep.

#[derive(Clone, Copy)]
enum Goal {
    Byte(u8),
    Digit,
    /// Without leading zeros.
    Number,
    /// A pair or a tip's number.
    Node,
    Pair,
}

/// Two branches in parentheses.
const PAIR: [Goal; 17] = [
    Goal::Byte(b'('),
    Goal::Node,
    Goal::Byte(b':'),
    Goal::Number,
    Goal::Byte(b'.'),
    Goal::Digit,
    Goal::Digit,
    Goal::Digit,
    Goal::Byte(b','),
    Goal::Node,
    Goal::Byte(b':'),
    Goal::Number,
    Goal::Byte(b'.'),
    Goal::Digit,
    Goal::Digit,
    Goal::Digit,
    Goal::Byte(b')'),
];

/// That a text is well spelled, or the place of the first byte that is not; its length where it ends too early.
pub fn check(text: &[u8]) -> Result<(), usize> {
    let mut goals = vec![Goal::Byte(b';'), Goal::Pair];
    let mut at = 0;
    while let Some(goal) = goals.pop() {
        let rest = &text[at..];
        let taken = match goal {
            Goal::Byte(byte) => usize::from(rest.first() == Some(&byte)),
            Goal::Digit => digits(rest).min(1),
            Goal::Number if rest.first() == Some(&b'0') => 1,
            Goal::Number => digits(rest),
            Goal::Node => {
                goals.push(if rest.first() == Some(&b'(') { Goal::Pair } else { Goal::Number });
                continue;
            }
            Goal::Pair => {
                goals.extend(PAIR.into_iter().rev());
                continue;
            }
        };
        if taken == 0 {
            return Err(at);
        }
        at += taken;
    }
    if at == text.len() { Ok(()) } else { Err(at) }
}

/// How many digits a text begins with.
fn digits(text: &[u8]) -> usize {
    text.iter().take_while(|byte| byte.is_ascii_digit()).count()
}
