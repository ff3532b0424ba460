//! State files with the Rust's answers, for the program `replay`, which answers them again where there is no Rust. The
//! first line is `cases=` with their number. A case is a line `file=` with a length, so many bytes and a byte 10; then the
//! answer likewise, after a line `answer=`. After the last case the data ends.

use crate::files::{answer_of, case_of, kind_of, valid};
use crate::oracle::{self, Compared};
use cases::statefile::LONGEST;
use cases::{Chance, Kind};
use std::collections::BTreeMap;
use std::fs;

/// How many cases there are of each move, answer and kind of ratio, where they can be met at all.
const MOVED: usize = 40;
const DECLINED: usize = 16;
const LINES: usize = 12;
const REFUSED: usize = 5;

/// Numbers of tips, small ones often.
const TIPS: [usize; 16] = [2, 2, 3, 3, 3, 4, 4, 5, 6, 8, 8, 12, 16, 16, 31, 50];

/// Cases with their answers.
struct Data {
    bytes: Vec<u8>,
    cases: u64,
    counts: BTreeMap<(&'static str, &'static str, Vec<u8>), usize>,
}

/// Writes the cases of a seed.
pub fn write(path: &str, seed: u64) -> Compared<String> {
    let mut chance = Chance::new(seed);
    let mut data = Data { bytes: Vec::new(), cases: 0, counts: BTreeMap::new() };
    for _ in 0..60_000 {
        let tips = chance.pick(&TIPS);
        let file = case_of(&mut chance, tips)?;
        if file.len() < 8_000 {
            data.take(file)?;
        }
    }
    for kind in Kind::ALL {
        for tips in [64, 101] {
            data.large(&mut chance, kind, tips)?;
        }
    }
    data.large(&mut chance, Kind::WilsonBalding, 501)?;
    data.large(&mut chance, Kind::SubtreeSlide, 2048)?;
    let mut long = valid(&mut chance, 3).write();
    long.resize(LONGEST + 1, b'\n');
    data.add(&long)?;
    let bytes = [format!("cases={}\n", data.cases).as_bytes(), &data.bytes].concat();
    fs::write(path, &bytes).map_err(|fault| format!("{path}: {fault}"))?;
    Ok(format!("{path}: {} cases in {} bytes", data.cases, bytes.len()))
}

impl Data {
    /// Adds a case, where more of its move, answer and kind of ratio are wanted.
    fn take(&mut self, file: Vec<u8>) -> Compared<()> {
        let answer = oracle::answer(&file)?;
        let key = (kind_of(&file), answer_of(&answer), ratio_of(&answer));
        let wanted = match key.1 {
            "moved" => MOVED,
            "declined" => DECLINED,
            "9" => LINES,
            _ => REFUSED,
        };
        let count = self.counts.entry(key).or_default();
        if *count < wanted {
            *count += 1;
            self.add(&file)?;
        }
        Ok(())
    }

    /// Adds a move that is made on a tree of so many tips.
    fn large(&mut self, chance: &mut Chance, kind: Kind, tips: usize) -> Compared<()> {
        loop {
            let file = valid(chance, tips);
            let text = file.write();
            if file.kind == kind && answer_of(&oracle::answer(&text)?) == "moved" {
                return self.add(&text);
            }
        }
    }

    fn add(&mut self, file: &[u8]) -> Compared<()> {
        let answer = oracle::answer(file)?;
        self.put("file", file);
        self.put("answer", &answer);
        self.cases += 1;
        Ok(())
    }

    fn put(&mut self, key: &str, text: &[u8]) {
        self.bytes.extend_from_slice(format!("{key}={}\n", text.len()).as_bytes());
        self.bytes.extend_from_slice(text);
        self.bytes.push(b'\n');
    }
}

/// The kind of the ratio in an answer; nothing where it has none.
fn ratio_of(answer: &[u8]) -> Vec<u8> {
    let line = answer.split(|&byte| byte == 10).nth(3).unwrap_or_default();
    line.split(|&byte| byte == b',').next().unwrap_or_default().to_vec()
}
