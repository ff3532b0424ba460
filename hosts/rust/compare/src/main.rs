//! Runs the port beside the Rust, in one process and by bits, and stops at the first difference, which it prints in full.
//!
//!     compare files N | moves N | trees N | parameters N | newick N
//!     compare all [--files N] [--moves N] [--trees N] [--parameters N] [--newick N]
//!     compare replay FILE
//!
//! `--seed S` gives other cases.

mod again;
mod ages;
mod clades;
mod copies;
mod dating;
mod files;
mod moves;
mod newick;
mod oracle;
mod parameters;
mod plain;
mod port;
mod ratio;
mod replay;
mod tally;
mod texts;
mod trees;
mod values;
mod wrong;

use oracle::Compared;
use std::process::ExitCode;
use tally::Tally;

const USAGE: &str = "usage: compare files|moves|trees|parameters|newick N, compare all [--files N] [--moves N] \
                     [--trees N] [--parameters N] [--newick N], or compare replay FILE; each with [--seed S]";

/// A part: its name, and the function that compares so many cases from a seed.
type Part = (&'static str, fn(u64, u64) -> Compared<Tally>);

const PARTS: [Part; 5] = [
    ("files", files::compare),
    ("moves", moves::compare),
    ("trees", trees::compare),
    ("parameters", parameters::compare),
    ("newick", newick::compare),
];

fn main() -> ExitCode {
    let words: Vec<String> = std::env::args().skip(1).collect();
    match run(&words) {
        Ok(()) => ExitCode::SUCCESS,
        Err(fault) => {
            println!("{fault}");
            ExitCode::FAILURE
        }
    }
}

fn run(words: &[String]) -> Compared<()> {
    let what = words.first().ok_or(USAGE)?.as_str();
    let seed = option(words, "--seed")?.unwrap_or(1);
    if what == "replay" {
        println!("{}", replay::write(words.get(1).ok_or(USAGE)?, seed)?);
        return Ok(());
    }
    if what != "all" && !PARTS.iter().any(|part| part.0 == what) {
        return Err(USAGE.into());
    }
    for (part, compare) in PARTS {
        let count = match what {
            "all" => option(words, &format!("--{part}"))?,
            _ if what == part => Some(number(words.get(1))?),
            _ => None,
        };
        if let Some(count) = count {
            println!("{}", compare(count, seed)?);
        }
    }
    Ok(())
}

fn number(word: Option<&String>) -> Compared<u64> {
    word.and_then(|word| word.parse().ok()).ok_or(USAGE.into())
}

/// The number after an option, where it is given.
fn option(words: &[String], name: &str) -> Compared<Option<u64>> {
    let at = words.iter().position(|word| word == name);
    at.map(|at| number(words.get(at + 1))).transpose()
}
