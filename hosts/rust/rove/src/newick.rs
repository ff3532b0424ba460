//! Newick copies of trees.

use crate::answer::Refusal;
use crate::exports;
use crate::record::{Record, word};
use crate::tree::Tree;

/// No copy has more bytes; 2,048 tips with 13 digits before the point of every length would have so many.
pub const LONGEST_NEWICK: usize = 86_916;

/// As many nodes as a tree may have.
const NODES: usize = 4095;

/// The tree that a copy holds. Its internal nodes are numbered in the order in which their parentheses close, so that the
/// root is the last.
#[derive(Clone, Debug, PartialEq, Eq)]
pub struct NewickTree {
    /// As a `Tree` has them.
    pub pairs: Vec<u16>,
    /// In whole thousandths above the youngest tip, each below 2^53.
    pub ages: Vec<u64>,
}

impl Tree {
    /// The copy: tips by their numbers, branches in thousandths between the printed ages of their ends.
    pub fn newick(&self) -> Result<Vec<u8>, Refusal> {
        let mut record = self.record();
        let mut text = vec![0; LONGEST_NEWICK];
        let code =
            exports::rove_write_newick(&self.pairs, &self.parents, &self.heights, &mut text, &mut record.0);
        record.verdict(code)?;
        text.truncate(record.0[word::FIRST] as usize);
        Ok(text)
    }
}

/// The tree of a copy. A text that is none is refused with the place of its fault.
pub fn read_newick(text: &[u8]) -> Result<NewickTree, Refusal> {
    let mut record = Record::empty();
    let (mut pairs, mut ages) = (vec![0; 2 * NODES], vec![0; NODES]);
    let code = exports::rove_read_newick(text, &mut pairs, &mut ages, &mut record.0);
    record.verdict(code).map_err(of_text)?;
    let nodes = record.0[word::FIRST] as usize;
    pairs.truncate(2 * nodes);
    ages.truncate(nodes);
    Ok(NewickTree { pairs, ages })
}

/// A refusal of the reader, whose 9 has a place.
fn of_text(refusal: Refusal) -> Refusal {
    match refusal {
        Refusal::Line(place) => Refusal::Place(place),
        other => other,
    }
}
