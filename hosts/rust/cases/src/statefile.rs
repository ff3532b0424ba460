//! The state file: what its lines hold, how they are written, and a plain reading of document 01 of which bytes are one.

use crate::text::{decimal, hexadecimal, parts, put_decimal, put_hexadecimal};

/// The greatest number of bytes.
pub const LONGEST: usize = 131_072;

#[derive(Clone, Copy, Debug, PartialEq, Eq, PartialOrd, Ord)]
pub enum Kind {
    NodeHeight,
    SubtreeSlide,
    NarrowExchange,
    WideExchange,
    WilsonBalding,
    RootScale,
    TreeScale,
}

impl Kind {
    pub const ALL: [Self; 7] = [
        Self::NodeHeight,
        Self::SubtreeSlide,
        Self::NarrowExchange,
        Self::WideExchange,
        Self::WilsonBalding,
        Self::RootScale,
        Self::TreeScale,
    ];

    pub fn name(self) -> &'static str {
        match self {
            Self::NodeHeight => "NodeHeight",
            Self::SubtreeSlide => "SubtreeSlide",
            Self::NarrowExchange => "NarrowExchange",
            Self::WideExchange => "WideExchange",
            Self::WilsonBalding => "WilsonBalding",
            Self::RootScale => "RootScale",
            Self::TreeScale => "TreeScale",
        }
    }

    /// The slide's step stands under tuning too.
    pub fn uses_tuning(self) -> bool {
        matches!(self, Self::SubtreeSlide) || self.scales()
    }

    pub fn scales(self) -> bool {
        matches!(self, Self::RootScale | Self::TreeScale)
    }

    pub fn uses_node(self) -> bool {
        matches!(self, Self::SubtreeSlide)
    }
}

/// Floats by their bits. There are as many pairs as internal nodes.
#[derive(Clone, Debug, PartialEq)]
pub struct StateFile {
    pub draws: u64,
    pub state: [u64; 4],
    pub kind: Kind,
    pub node: u64,
    pub tuning: u64,
    pub tips: u64,
    pub pairs: Vec<(u16, u16)>,
    pub heights: Vec<u64>,
}

impl StateFile {
    pub fn write(&self) -> Vec<u8> {
        let mut text = Vec::with_capacity(160 + 16 * self.pairs.len() + 24 * self.heights.len());
        text.extend_from_slice(b"edition=1\ndraws=");
        put_decimal(&mut text, self.draws);
        put_state(&mut text, self.state);
        text.extend_from_slice(b"\nmove=");
        text.extend_from_slice(self.kind.name().as_bytes());
        text.extend_from_slice(b"\nnode=");
        put_decimal(&mut text, self.node);
        text.extend_from_slice(b"\ntuning=");
        put_hexadecimal(&mut text, self.tuning);
        text.extend_from_slice(b"\ntips=");
        put_decimal(&mut text, self.tips);
        text.push(b'\n');
        put_tree(&mut text, &self.pairs, &self.heights);
        text
    }

    /// What a file holds, or the number of the first line that is not of its form; 0 for a file that is too long.
    pub fn read(file: &[u8]) -> Result<Self, u64> {
        if file.len() > LONGEST {
            return Err(0);
        }
        let mut lines = Lines { rest: file, number: 0 };
        lines.take("edition", |text| (text == b"1").then_some(()))?;
        let draws = lines.take("draws", |text| decimal(text, u32::MAX.into()))?;
        let state = lines.take("state", words)?;
        let kind = lines.take("move", kind)?;
        let node =
            lines.take("node", |text| decimal(text, 65_535).filter(|&node| node == 0 || kind.uses_node()))?;
        let tuning =
            lines.take("tuning", |text| hexadecimal(text).filter(|&bits| bits == 0 || kind.uses_tuning()))?;
        let tips = lines.take("tips", |text| decimal(text, u32::MAX.into()))?;
        let mut pairs = Vec::new();
        for _ in 1..tips {
            pairs.push(lines.take("pair", pair)?);
        }
        let mut heights = Vec::new();
        for _ in 1..2 * tips {
            heights.push(lines.take("height", hexadecimal)?);
        }
        lines.end()?;
        Ok(Self { draws, state, kind, node, tuning, tips, pairs, heights })
    }
}

/// The line of a state, after a byte 10 and without its own.
pub fn put_state(text: &mut Vec<u8>, state: [u64; 4]) {
    text.extend_from_slice(b"\nstate=");
    for (i, word) in state.into_iter().enumerate() {
        if i > 0 {
            text.push(b',');
        }
        put_hexadecimal(text, word);
    }
}

/// The lines of pairs and heights.
pub fn put_tree(text: &mut Vec<u8>, pairs: &[(u16, u16)], heights: &[u64]) {
    for &(a, b) in pairs {
        text.extend_from_slice(b"pair=");
        put_decimal(text, a.into());
        text.push(b',');
        put_decimal(text, b.into());
        text.push(b'\n');
    }
    for &height in heights {
        text.extend_from_slice(b"height=");
        put_hexadecimal(text, height);
        text.push(b'\n');
    }
}

fn kind(text: &[u8]) -> Option<Kind> {
    Kind::ALL.into_iter().find(|kind| kind.name().as_bytes() == text)
}

pub fn words(text: &[u8]) -> Option<[u64; 4]> {
    let [a, b, c, d] = parts(text)?;
    Some([hexadecimal(a)?, hexadecimal(b)?, hexadecimal(c)?, hexadecimal(d)?])
}

pub fn pair(text: &[u8]) -> Option<(u16, u16)> {
    let [a, b] = parts(text)?;
    Some((decimal(a, 65_535)? as u16, decimal(b, 65_535)? as u16))
}

/// The lines of a text that are still to be read, and the number of the last one read.
pub struct Lines<'a> {
    pub rest: &'a [u8],
    pub number: u64,
}

impl Lines<'_> {
    /// The next line's value, if the line has this key, ends in a byte 10 and has such a value.
    pub fn take<T>(&mut self, key: &str, value: impl Fn(&[u8]) -> Option<T>) -> Result<T, u64> {
        self.number += 1;
        let end = self.rest.iter().position(|&byte| byte == 10).ok_or(self.number)?;
        let line = &self.rest[..end];
        self.rest = &self.rest[end + 1..];
        line.strip_prefix(key.as_bytes())
            .and_then(|line| line.strip_prefix(b"="))
            .and_then(value)
            .ok_or(self.number)
    }

    /// That nothing is left.
    pub fn end(&self) -> Result<(), u64> {
        if self.rest.is_empty() { Ok(()) } else { Err(self.number + 1) }
    }
}
