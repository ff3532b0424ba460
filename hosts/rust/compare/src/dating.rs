//! The calls on a tree with parameters: `initialize` and TipAge with their age table, and Yule.

use crate::again::Again;
use crate::ages::{Table, dating, lowest_fault};
use crate::oracle::{Compared, allowed, drawn, unspent};
use crate::parameters::{process_finite, value};
use crate::plain::{bits, children, same_float, same_floats, shown};
use crate::trees::{Called, answered, called, stepped};
use crate::wrong::{judged, wrong_tree};
use cases::{Chance, Guarded};
use rove::{Record, Refusal, Tree, exports, word};
use scripted::dating::{Dating, TipAge};
use scripted::random::Random;

// ---- with an age table

/// A call on a tree with a table, on slices with guards.
struct Dated {
    tree: Tree,
    table: Table,
    call: Called,
    /// The heights afterwards.
    heights: Vec<f64>,
}

type Export = fn(&[u16], &[u16], &mut [f64], &[f64], &[f64], &mut [u64]) -> u64;

impl Dated {
    /// By an export, through a function that makes its call with a record, and may make it more than once.
    fn any(
        chance: &mut Chance,
        export: Export,
        make: impl FnOnce(Record, &mut dyn FnMut(&mut [u64]) -> u64) -> Compared<Called>,
    ) -> Compared<Self> {
        let mut tree = wrong_tree(chance);
        if chance.once_in(16) {
            tree.heights.fill(0.0);
        }
        let top = tree.heights.iter().copied().filter(|x| x.is_finite()).fold(0.0, f64::max);
        let mut table = Table::any(chance, tree.nodes(), top);
        table.record.set_index(word::ROOT, tree.root);
        let [minima, maxima] = table.ends(chance);
        let mut lent = Guarded::new(&tree.heights, |word| (word >> 12) as f64, chance);
        let call = make(table.record.clone(), &mut |words| {
            lent.items_mut().copy_from_slice(&tree.heights);
            export(&tree.pairs, &tree.parents, lent.items_mut(), minima.items(), maxima.items(), words)
        })?;
        if !(lent.guards_kept() && minima.guards_kept() && maxima.guards_kept()) {
            return Err("something beside the slices was written".into());
        }
        Ok(Self { tree, table, call, heights: lent.items().to_vec() })
    }

    /// What the call has to look at first: the table's lengths, the tree, and the tips.
    fn checked(&self) -> Result<scripted::tree::Tree, Refusal> {
        let Self { tree, table, .. } = self;
        if !table.is_sized(tree.nodes()) {
            return Err(Refusal::Size(tree.nodes() as u64));
        }
        judged(tree)?;
        match lowest_fault(table.process(), &table.ages) {
            Some(tip) => Err(Refusal::Parameter(tip as u64)),
            None => {
                Ok(scripted::tree::Tree::new(children(&tree.pairs), tree.heights.clone()).expect("a tree"))
            }
        }
    }

    fn dating(&self) -> Dating {
        dating(self.table.process(), self.table.ages.clone())
    }

    /// That the call left these heights and was answered so; otherwise all that it was given.
    fn left(&self, expected: &[f64], answer: Compared<&'static str>) -> Compared<&'static str> {
        let told = |fault| {
            let (tree, ages) = (shown(&self.tree), self.table.shown());
            format!("{tree}, {ages}{fault}\nheights afterwards: {}", bits(&self.heights))
        };
        if !same_floats(&self.heights, expected) {
            let code = self.call.code;
            return Err(told(format!(", answer {code}, expected heights {}", bits(expected))));
        }
        answer.map_err(told)
    }

    /// That it was refused, and left the heights as they came.
    fn refused(&self, why: Refusal) -> Compared<&'static str> {
        self.left(&self.tree.heights, self.table.refused(&self.call, why))
    }
}

fn heights(tree: &scripted::tree::Tree) -> Vec<f64> {
    (0..tree.nodes()).map(|node| tree.height(node)).collect()
}

pub fn initialize(chance: &mut Chance) -> Compared<&'static str> {
    let dated = Dated::any(chance, exports::rove_initialize, |record, call| Ok(called(record, call)))?;
    match initialized(&dated) {
        Err(why) => dated.refused(why),
        Ok(expected) => dated.left(&expected, dated.call.is(0, &answered(0, 0, 0, 0, 0)).map(|()| "given")),
    }
}

/// The Rust's heights, within the limits.
fn initialized(dated: &Dated) -> Result<Vec<f64>, Refusal> {
    let mut rust = dated.checked()?;
    let process = dated.table.process();
    let middle = |age: &TipAge| age.minimum + (age.maximum - age.minimum) / 2.0;
    let oldest = dated.table.ages.iter().map(middle).fold(0.0, f64::max);
    let above = rust.height(rust.root()) > 0.0 && process.origin > oldest;
    if !(process_finite(&process) && above) {
        return Err(Refusal::Parameter(0));
    }
    scripted::initialize(&dated.dating(), &mut rust);
    let heights = heights(&rust);
    match heights.iter().position(|height| !height.is_finite()) {
        Some(node) => Err(Refusal::NotFinite(node as u64)),
        None => Ok(heights),
    }
}

/// How TipAge ends: the draws, the state after them, and the heights where it moved.
struct Aged {
    draws: u64,
    state: [u64; 4],
    heights: Option<Vec<f64>>,
}

pub fn propose_age(chance: &mut Chance, again: &mut Again) -> Compared<&'static str> {
    let dated = Dated::any(chance, exports::rove_propose_age, |record, call| again.called(record, call))?;
    match aged(&dated) {
        Err(why) => dated.refused(why),
        Ok(Aged { draws, state, heights: None }) => {
            let words = [&stepped(state)[..], &answered(1, draws, 0, 0, 0)].concat();
            dated.left(&dated.tree.heights, dated.call.is(1, &words).map(|()| "declined"))
        }
        Ok(Aged { draws, state, heights: Some(heights) }) => {
            let words = [&stepped(state)[..], &answered(0, draws, 0, 1, 1)].concat();
            dated.left(&heights, dated.call.is(0, &words).map(|()| "moved"))
        }
    }
}

fn aged(dated: &Dated) -> Result<Aged, Refusal> {
    let mut rust = dated.checked()?;
    let before = &dated.call.before;
    let (from, allowance) = (before.state(), before.0[word::ALLOWANCE]);
    if !(process_finite(&dated.table.process()) && allowed(allowance)) {
        return Err(Refusal::Parameter(0));
    }
    let mut random = Random::of(from, allowance);
    let ran = unspent(|| scripted::propose_age(&dated.dating(), &mut rust, &mut random));
    match (ran, drawn(&random, from, allowance)) {
        (Some(log), Some(draws)) => {
            let heights = log.map(|log| {
                assert!(same_float(log, 0.0), "TipAge is even");
                heights(&rust)
            });
            Ok(Aged { draws, state: random.state(), heights })
        }
        _ => Err(Refusal::Allowance(allowance)),
    }
}

// ---- Yule

pub fn yule_log_density(chance: &mut Chance) -> Compared<&'static str> {
    let mut tree = wrong_tree(chance);
    if chance.once_in(2) {
        let tips = tree.heights.len().div_ceil(2);
        tree.heights[..tips].fill(0.0);
    }
    let mut record = Record(chance.words());
    record.set_index(word::ROOT, tree.root);
    record.set_float(13, value(chance));
    let call = called(record, |words| {
        exports::rove_yule_log_density(&tree.pairs, &tree.parents, &tree.heights, words)
    });
    density(&call, &tree).map_err(|fault| format!("{}{fault}", shown(&tree)))
}

/// The density's terms are compared by the logarithm that they give, and the product by a sum of its own; the sign of a
/// total of zero is not compared.
fn density(call: &Called, tree: &Tree) -> Compared<&'static str> {
    let rust = match judged(tree) {
        Ok(rust) => rust,
        Err(why) => return call.is_refused(why),
    };
    let rate = call.before.float(13);
    let log = reference::speciation::yule_log_density(&rust, rate);
    if log == f64::NEG_INFINITY && call.code == 1 {
        let words = answered(1, 0, 0, 0, 0);
        let vanishes =
            !(rate.is_finite() && rate > 0.0) || tree.heights[..tree.tips()].iter().any(|&x| x != 0.0);
        return if vanishes {
            call.is(1, &words).map(|()| "minus infinity")
        } else {
            Err(", a finite density".into())
        };
    }
    let total = tree.heights[tree.tips()..].iter().sum::<f64>() + tree.heights[tree.root];
    let product = rate * (total + 0.0);
    let power = tree.tips() as u64 - 1;
    let words = [(14, rate.to_bits()), (15, product.to_bits())];
    call.is(0, &[&answered(0, 0, 0, power, 0)[..], &words].concat())?;
    let taken = power as f64 * rate.ln() - product;
    if same_float(log, taken) || log.is_nan() && taken.is_nan() {
        return Ok("given");
    }
    Err(format!(", the Rust's {log:e} is not {taken:e}"))
}
