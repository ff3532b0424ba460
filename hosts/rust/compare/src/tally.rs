//! Counts of what was compared, by kind and answer.

use cases::Progress;
use std::collections::BTreeMap;
use std::fmt;
use std::time::Instant;

pub struct Tally {
    what: &'static str,
    counts: BTreeMap<(&'static str, &'static str), u64>,
    total: u64,
    progress: Progress,
    began: Instant,
}

impl Tally {
    pub fn new(what: &'static str, wanted: u64) -> Self {
        let progress = Progress::new(what, wanted);
        Self { what, counts: BTreeMap::new(), total: 0, progress, began: Instant::now() }
    }

    /// One more of those wanted, by its kind and its answer.
    pub fn count(&mut self, kind: &'static str, answer: &'static str) {
        self.also(kind, answer, 1);
        self.total += 1;
        self.progress.done(self.total);
    }

    /// Others that were compared beside them.
    pub fn also(&mut self, kind: &'static str, answer: &'static str, count: u64) {
        *self.counts.entry((kind, answer)).or_default() += count;
    }

    pub fn total(&self) -> u64 {
        self.total
    }
}

impl fmt::Display for Tally {
    fn fmt(&self, f: &mut fmt::Formatter<'_>) -> fmt::Result {
        let all: u64 = self.counts.values().sum();
        let seconds = self.began.elapsed().as_secs_f64();
        write!(f, "{}: {} alike", self.what, self.total)?;
        if all > self.total {
            write!(f, ", and {} beside them", all - self.total)?;
        }
        write!(f, ", in {seconds:.1} s")?;
        let mut last = "";
        for ((kind, answer), count) in &self.counts {
            if *kind != last {
                write!(f, "; {kind}:")?;
                last = kind;
            }
            write!(f, " {answer} {count}")?;
        }
        Ok(())
    }
}

/// The word for a refusal's number.
pub fn refused(number: u64) -> &'static str {
    const WORDS: [&str; 11] = ["0", "1", "2", "3", "4", "5", "6", "7", "8", "9", "10"];
    WORDS.get(number as usize).copied().unwrap_or("?")
}
