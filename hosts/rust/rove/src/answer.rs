//! What a call answers.

use std::fmt;

/// A call turned back: nothing was changed, and the generator is as it came.
#[derive(Clone, Copy, Debug, PartialEq, Eq)]
pub enum Refusal {
    /// 1, the node count: under 3, even, over 4,095, or lengths disagree.
    Size(u64),
    /// 2, the node with wrong children, or a child of two nodes.
    Shape(u64),
    /// 3: not one tree, or the parents or the root are not those of the pairs.
    Disconnected,
    /// 4, the lowest node whose height is negative, not finite or above its parent's.
    Height(u64),
    /// 5: a parameter outside its limits; of an age table, the lowest tip at fault, else 0.
    Parameter(u64),
    /// 6, the allowance: more draws would be made.
    Allowance(u64),
    /// 7, the lowest node whose new height is not finite.
    NotFinite(u64),
    /// 8, the node whose drawn height is outside its interval.
    Outside(u64),
    /// 9, the first line that is not of the state file's form; 0 for a file that is too long.
    Line(u64),
    /// 9 of a Newick text: the place of the first byte that its spelling forbids; the text's length where only its end, its
    /// tip numbers, its number of tips or its root's age is at fault.
    Place(u64),
    /// 10: a lent slice is too short for the result.
    Room,
}

impl Refusal {
    /// The refusal of a number and a detail; a 9 is that of a state file.
    pub fn of(number: u64, detail: u64) -> Option<Self> {
        Some(match number {
            1 => Self::Size(detail),
            2 => Self::Shape(detail),
            3 => Self::Disconnected,
            4 => Self::Height(detail),
            5 => Self::Parameter(detail),
            6 => Self::Allowance(detail),
            7 => Self::NotFinite(detail),
            8 => Self::Outside(detail),
            9 => Self::Line(detail),
            10 => Self::Room,
            _ => return None,
        })
    }

    pub fn number(self) -> u64 {
        match self {
            Self::Size(_) => 1,
            Self::Shape(_) => 2,
            Self::Disconnected => 3,
            Self::Height(_) => 4,
            Self::Parameter(_) => 5,
            Self::Allowance(_) => 6,
            Self::NotFinite(_) => 7,
            Self::Outside(_) => 8,
            Self::Line(_) | Self::Place(_) => 9,
            Self::Room => 10,
        }
    }

    pub fn detail(self) -> u64 {
        match self {
            Self::Disconnected | Self::Room => 0,
            Self::Size(detail)
            | Self::Shape(detail)
            | Self::Height(detail)
            | Self::Parameter(detail)
            | Self::Allowance(detail)
            | Self::NotFinite(detail)
            | Self::Outside(detail)
            | Self::Line(detail)
            | Self::Place(detail) => detail,
        }
    }
}

impl fmt::Display for Refusal {
    fn fmt(&self, f: &mut fmt::Formatter<'_>) -> fmt::Result {
        write!(f, "refused,{},{}", self.number(), self.detail())
    }
}

impl std::error::Error for Refusal {}

/// The Hastings ratio of a moved call, before its logarithm is taken.
#[derive(Clone, Copy, Debug, PartialEq)]
pub enum Ratio {
    /// 1 over 1.
    Even,
    /// The first over the second.
    Counts(u64, u64),
    /// The first over the second.
    Lengths(f64, f64),
    /// The first to the power of the second.
    Power(f64, i64),
}

impl Ratio {
    /// The logarithm: ln(a/b), or k·ln f. Of an upward slide take `ln_upward`, whose bits are others.
    pub fn ln(self) -> f64 {
        match self {
            Self::Even => 0.0,
            Self::Counts(a, b) => (a as f64 / b as f64).ln(),
            Self::Lengths(a, b) => (a / b).ln(),
            Self::Power(f, k) => k as f64 * f.ln(),
        }
    }

    /// The logarithm of a slide whose step is above 0: −ln b of 1 over b.
    pub fn ln_upward(self) -> f64 {
        match self {
            Self::Counts(_, b) => -(b as f64).ln(),
            other => other.ln(),
        }
    }
}

#[derive(Clone, Copy, Debug, PartialEq)]
pub struct Moved {
    /// The root after the move.
    pub root: usize,
    pub draws: u64,
    pub ratio: Ratio,
}

/// The answer of a call that moves a tree.
#[derive(Clone, Copy, Debug, PartialEq)]
pub enum Answer {
    Moved(Moved),
    /// The draws made; the tree is as it came.
    Declined(u64),
    Refused(Refusal),
}

/// The answer of a call that changes parameters.
#[derive(Clone, Copy, Debug, PartialEq)]
pub enum Proposal {
    /// The draws made, and the ratio.
    Scaled(u64, Ratio),
    /// The draws made; the parameters are as they came.
    Declined(u64),
    Refused(Refusal),
}
