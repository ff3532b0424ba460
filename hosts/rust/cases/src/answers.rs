//! Whether a text is an answer to a state file, as far as the file's form decides it.

use crate::statefile::{Lines, StateFile, pair, words};
use crate::text::{decimal, hexadecimal, parts};

/// That a text is of the form of an answer to what was read of a file: a 9 with its line, a 1 for a number of nodes that
/// no tree has, and otherwise an answer with as many lines as the tree has.
pub fn in_form(text: &[u8], file: &Result<StateFile, u64>) -> Result<(), String> {
    let only = |number: u64, detail: u64| {
        let expected = format!("answer=refused,{number},{detail}\n");
        if text == expected.as_bytes() { Ok(()) } else { Err(format!("expected {expected}")) }
    };
    let file = match file {
        Err(line) => return only(9, *line),
        Ok(file) => file,
    };
    let nodes = (2 * file.tips).saturating_sub(1);
    if !(3..=4095).contains(&nodes) {
        return only(1, nodes);
    }
    let mut lines = Lines { rest: text, number: 0 };
    answer(&mut lines, file).map_err(|line| format!("line {line} is not of an answer's form"))
}

enum Word {
    Moved,
    Declined,
    Refused,
}

fn answer(lines: &mut Lines, file: &StateFile) -> Result<(), u64> {
    let word = lines.take("answer", |text| match text {
        b"moved" => Some(Word::Moved),
        b"declined" => Some(Word::Declined),
        text => refusal(text).then_some(Word::Refused),
    })?;
    if let Word::Refused = word {
        return lines.end();
    }
    lines.take("draws", |text| decimal(text, file.draws))?;
    lines.take("state", words)?;
    if let Word::Declined = word {
        return lines.end();
    }
    lines.take("ratio", |text| ratio(text).then_some(()))?;
    lines.take("root", |text| decimal(text, 2 * file.tips - 2))?;
    for _ in 1..file.tips {
        lines.take("pair", pair)?;
    }
    for _ in 1..2 * file.tips {
        lines.take("height", hexadecimal)?;
    }
    lines.end()
}

/// A refusal that a file of the right form and size can have.
fn refusal(text: &[u8]) -> bool {
    let Some([b"refused", number, detail]) = parts(text) else {
        return false;
    };
    let detail = decimal(detail, u32::MAX.into());
    decimal(number, 8).is_some_and(|number| number >= 2) && detail.is_some()
}

fn ratio(text: &[u8]) -> bool {
    let small = |text: &[u8]| decimal(text, 65_535).is_some();
    let float = |text: &[u8]| hexadecimal(text).is_some();
    match parts(text) {
        None => text == b"even",
        Some([b"counts", a, b]) => small(a) && small(b),
        Some([b"lengths", a, b]) => float(a) && float(b),
        Some([b"power", f, k]) => float(f) && small(k.strip_prefix(b"-").unwrap_or(k)),
        Some(_) => false,
    }
}
