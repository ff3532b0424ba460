//! A generator in the place of the Rust's, which draws as that one does but for what it was told beforehand: a node for
//! the first call of `below`, and what `normal` gives. It also stands for the state of four zero words, of which the
//! Rust makes no generator, and ends a call that would draw more than it may.

use reference::random::Random as Drawing;

/// What a call unwinds with that would draw more than it may.
pub struct Spent;

pub struct Random {
    /// None for four zero words.
    drawing: Option<Drawing>,
    node: Option<usize>,
    normal: f64,
    /// The draws made and left with four zero words.
    made: u64,
    left: u64,
}

impl Random {
    pub fn of(state: [u64; 4], allowance: u64) -> Self {
        let drawing = reference::from_state(state);
        Self { drawing, node: None, normal: f64::NAN, made: 0, left: allowance }
    }

    /// With a node and a normal told beforehand.
    pub fn told(state: [u64; 4], allowance: u64, node: usize, normal: f64) -> Self {
        Self { node: Some(node), normal, ..Self::of(state, allowance) }
    }

    pub fn state(&self) -> [u64; 4] {
        self.drawing.as_ref().map_or([0; 4], reference::state)
    }

    /// The draws made, where the words are four zeros.
    pub fn made(&self) -> u64 {
        self.made
    }

    /// A draw of four zero words.
    fn zero(&mut self) -> u64 {
        if self.left == 0 {
            std::panic::resume_unwind(Box::new(Spent));
        }
        self.left -= 1;
        self.made += 1;
        0
    }

    pub fn next_u64(&mut self) -> u64 {
        if let Some(drawing) = &mut self.drawing {
            return drawing.next_u64();
        }
        self.zero()
    }

    pub fn uniform(&mut self) -> f64 {
        if let Some(drawing) = &mut self.drawing {
            return drawing.uniform();
        }
        self.zero();
        0.0
    }

    /// A draw of 0 is drawn again until the end, unless 2^64 mod n is 0.
    pub fn below(&mut self, n: usize) -> usize {
        if let Some(node) = self.node.take() {
            return node;
        }
        if let Some(drawing) = &mut self.drawing {
            return drawing.below(n);
        }
        self.zero();
        while !n.is_power_of_two() {
            self.zero();
        }
        0
    }

    pub fn coin(&mut self) -> bool {
        if let Some(drawing) = &mut self.drawing {
            return drawing.coin();
        }
        self.zero();
        false
    }

    pub fn normal(&mut self) -> f64 {
        self.normal
    }

    pub fn exponential(&mut self) -> f64 {
        -(1.0 - self.uniform()).ln()
    }
}
