//! Gives the port's functions what no host should: bytes that are no state file and no Newick copy, slices that are too
//! short for a result, trees that are none and records that are too short. Nothing may be read or written outside the
//! slices (guards stand on both sides of each), every call has to end, and what the papers say of the answer has to hold.
//!
//!     damage N [--seed S]

mod newick;
mod short;
mod text;
mod trees;

use std::process::ExitCode;

fn main() -> ExitCode {
    let words: Vec<String> = std::env::args().skip(1).collect();
    match run(&words) {
        Ok(()) => ExitCode::SUCCESS,
        Err(fault) => {
            println!("{fault}");
            ExitCode::FAILURE
        }
    }
}

fn run(words: &[String]) -> Result<(), String> {
    let number = |text: &String| text.parse::<u64>().map_err(|_| format!("{text} is no number"));
    let count = number(words.first().ok_or("how many?")?)?;
    let seed = match words.get(1).map(String::as_str) {
        Some("--seed") => number(words.get(2).ok_or("which seed?")?)?,
        _ => 1,
    };
    println!("{}", short::records()?);
    println!("{}", trees::deep()?);
    println!("{}", text::damage(count, seed)?);
    println!("{}", trees::damage(count, seed)?);
    println!("{}", newick::damage(count, seed)?);
    Ok(())
}
