//! The age table: one for a tree by chance, with up to four tips damaged at once, and the tip that its refusal has to name.

use crate::oracle::Compared;
use crate::parameters::{drawing, process_finite, value};
use crate::trees::{Called, answered, called};
use cases::{Chance, Guarded, shapes};
use rove::{Record, Refusal, exports, word};
use scripted::dating::{Dating, FossilizedBirthDeath, TipAge};

// ---- a table by chance

/// A table, and a record with the process; both mostly in order.
pub struct Table {
    pub record: Record,
    pub ages: Vec<TipAge>,
    /// How many of the last ages the least and the greatest are without.
    cut: [usize; 2],
}

impl Table {
    /// For a tree of so many nodes, the highest at `top`.
    pub fn any(chance: &mut Chance, nodes: usize, top: f64) -> Self {
        let mut record = drawing(chance);
        let origin = if chance.once_in(8) { value(chance) } else { top * 1.5 + chance.unit() };
        for (place, x) in [(13, 1.0), (14, 0.5), (15, 0.25), (16, 0.5), (17, origin)] {
            record.set_float(place, if chance.once_in(32) { value(chance) } else { x });
        }
        if chance.once_in(4) {
            record.set_float(16, chance.pick(&[0.0, -0.0]));
        }
        let tips = if chance.once_in(16) { chance.below(8) } else { nodes.div_ceil(2) };
        let present = chance.pick(&[1, 2, 4, 1000]);
        let ages = (0..tips).map(|_| age(chance, top, present)).collect();
        let mut table = Self { record, ages, cut: [0; 2] };
        if tips > 0 && chance.once_in(3) {
            table.damage(chance, top);
        }
        if tips > 0 && chance.once_in(32) {
            table.cut = chance.pick(&[[1, 0], [0, 1]]);
        }
        table
    }

    /// Whether both slices have one age for each tip of so many nodes.
    pub fn is_sized(&self, nodes: usize) -> bool {
        self.cut == [0; 2] && self.ages.len() == nodes.div_ceil(2)
    }

    /// One to four tips at fault by different rules, at times with another parameter outside its limits.
    fn damage(&mut self, chance: &mut Chance, top: f64) {
        for _ in 0..chance.between(1, 4) {
            let tip = chance.below(self.ages.len());
            self.ages[tip] = wrong_age(chance, top, self.record.float(17));
        }
        match chance.below(8) {
            0 => self.record.set(word::ALLOWANCE, 0),
            1 => self.record.set(word::ALLOWANCE, 65_536),
            2 => self.record.set_float(chance.between(13, 15), f64::INFINITY),
            _ => {}
        }
    }

    pub fn process(&self) -> FossilizedBirthDeath {
        let [birth, death, fossil_sampling, present_sampling, origin] =
            [13, 14, 15, 16, 17].map(|place| self.record.float(place));
        FossilizedBirthDeath { birth, death, fossil_sampling, present_sampling, origin }
    }

    /// The least ages and the greatest, with guards that are no ages.
    pub fn ends(&self, chance: &mut Chance) -> [Guarded<f64>; 2] {
        let noise = |word| -((word >> 12) as f64);
        let [least, greatest] = self.cut.map(|cut| &self.ages[..self.ages.len() - cut]);
        let minima: Vec<f64> = least.iter().map(|age| age.minimum).collect();
        let maxima: Vec<f64> = greatest.iter().map(|age| age.maximum).collect();
        [Guarded::new(&minima, noise, chance), Guarded::new(&maxima, noise, chance)]
    }

    /// The ages, and how many of the last the two slices are without.
    pub fn shown(&self) -> String {
        format!("ages {:x?} less {:?}", self.ages, self.cut)
    }

    /// That a call with the table was refused; a 5 is counted by how many tips are at fault.
    pub fn refused(&self, call: &Called, why: Refusal) -> Compared<&'static str> {
        let word = call.is_refused(why)?;
        let process = self.process();
        Ok(match (why, self.ages.iter().filter(|age| at_fault(&process, age)).count()) {
            (Refusal::Parameter(_), 1) => "5 for a tip",
            (Refusal::Parameter(_), 2..=4) => "5 for the lowest of two to four tips",
            (Refusal::Parameter(_), 5..) => "5 for the lowest of more tips",
            _ => word,
        })
    }
}

/// A tip's ages in order: fixed or an interval, at the present once in so many times.
fn age(chance: &mut Chance, top: f64, present: usize) -> TipAge {
    if chance.once_in(present) {
        return TipAge { minimum: chance.pick(&[0.0, -0.0]), maximum: 0.0 };
    }
    let minimum = top * chance.unit() + f64::MIN_POSITIVE;
    let length = if chance.once_in(4) { 0.0 } else { top * 0.3 * chance.unit() };
    TipAge { minimum, maximum: minimum + length }
}

/// A tip's ages mostly against one rule: crossed, with the present, at the origin, not finite or negative; or at the
/// present, where something may be sampled.
fn wrong_age(chance: &mut Chance, top: f64, origin: f64) -> TipAge {
    let (low, high) = (top * 0.25 + f64::MIN_POSITIVE, top * 0.5 + 2.0 * f64::MIN_POSITIVE);
    let (minimum, maximum) = match chance.below(7) {
        0 => (high, low),
        1 => (chance.pick(&[0.0, -0.0]), high),
        2 => (low, origin),
        3 => (low, chance.pick(&[f64::NAN, f64::INFINITY])),
        4 => (chance.pick(&[f64::NAN, f64::NEG_INFINITY, -low]), high),
        5 => (chance.pick(&[0.0, -0.0]), 0.0),
        _ => (value(chance), value(chance)),
    };
    TipAge { minimum, maximum }
}

pub fn dating(process: FossilizedBirthDeath, ages: Vec<TipAge>) -> Dating {
    Dating { process, process_priors: None, ages, clock_rate: 1.0, clock_prior_mean: None }
}

// ---- the tip that is named

/// Whether a tip is against one of the rules of `Dating::validate` on tips.
fn at_fault(process: &FossilizedBirthDeath, age: &TipAge) -> bool {
    let TipAge { minimum, maximum } = *age;
    !minimum.is_finite()
        || !maximum.is_finite()
        || minimum < 0.0
        || maximum < minimum
        || maximum >= process.origin
        || (minimum == 0.0 && maximum > 0.0)
        || (process.present_sampling == 0.0 && minimum == 0.0)
}

/// The lowest tip at fault. Of a process that the Rust takes, it is the Rust that says so: it refuses the first tips from
/// that one on, and none before.
pub fn lowest_fault(process: FossilizedBirthDeath, ages: &[TipAge]) -> Option<usize> {
    if process.validate().is_err() {
        return ages.iter().position(|age| at_fault(&process, age));
    }
    let is_taken = |tip: &usize| dating(process, ages[..=*tip].to_vec()).validate(tip + 1).is_ok();
    let tips: Vec<usize> = (0..ages.len()).collect();
    let lowest = tips.partition_point(is_taken);
    (lowest < ages.len()).then_some(lowest)
}

// ---- the table by itself

pub fn validate_ages(chance: &mut Chance) -> Compared<&'static str> {
    let nodes = 2 * shapes::tips(chance) - 1;
    let top = chance.unit() * 8.0;
    let mut table = Table::any(chance, nodes, top);
    let asked = match chance.below(8) {
        0 => chance.pick(&[0, 1, 2, 4, 4096, 4097, u64::MAX, (1 << 32) + 5]),
        1 => chance.between(0, 24) as u64,
        _ => nodes as u64,
    };
    table.record.set(word::NODE, asked);
    let [minima, maxima] = table.ends(chance);
    let call = called(table.record.clone(), |words| {
        exports::rove_validate_ages(minima.items(), maxima.items(), words)
    });
    let answer = match judged(asked, &table) {
        Err(why) => table.refused(&call, why),
        Ok(()) => call.is(0, &answered(0, 0, 0, 0, 0)).map(|()| "given"),
    };
    if !(minima.guards_kept() && maxima.guards_kept()) {
        return Err("something beside the table was written".into());
    }
    answer.map_err(|fault| format!("{}{fault}", table.shown()))
}

/// The number of nodes, the lengths, the tips, and the fields of the process.
fn judged(nodes: u64, table: &Table) -> Result<(), Refusal> {
    let sized = (3..=4095).contains(&nodes) && nodes % 2 == 1;
    if !sized || !table.is_sized(nodes as usize) {
        return Err(Refusal::Size(nodes));
    }
    let process = table.process();
    match lowest_fault(process, &table.ages) {
        Some(tip) => Err(Refusal::Parameter(tip as u64)),
        None if process_finite(&process) => Ok(()),
        None => Err(Refusal::Parameter(0)),
    }
}
