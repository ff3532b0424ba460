//! Sets of tips: whether one is monophyletic, beside the Rust, and its age, which the Rust does not have. Sets of any size on
//! trees that may be damaged; and single tips, which request S-4 dates by their stems.

use crate::oracle::Compared;
use crate::plain::{port_tree, rust_tree, shown};
use crate::tally::Tally;
use crate::trees::{Called, answered, called};
use crate::wrong::{judged, wrong_tree};
use cases::age::thousandths;
use cases::{Chance, Guarded, Sample, shapes};
use rove::{Record, Refusal, Tree, exports, word};

/// A tree, and a byte for each of its tips, not 0 where the tip is in the set.
struct Marked {
    tree: Tree,
    members: Vec<u8>,
}

type Export = fn(&[u16], &[u16], &[f64], &[u8], &mut [u64]) -> u64;

impl Marked {
    /// A tree that may be damaged, and marks by chance, or half of the time those of a clade where it is a tree.
    fn any(chance: &mut Chance) -> Self {
        let tree = wrong_tree(chance);
        let tips = if chance.once_in(16) { chance.below(8) } else { tree.nodes().div_ceil(2) };
        let few = chance.pick(&[1, 2, 2, 3, 1000]);
        let mut members: Vec<u8> =
            (0..tips).map(|_| if chance.once_in(few) { mark(chance) } else { 0 }).collect();
        if let (Ok(rust), true) = (judged(&tree), chance.once_in(2)) {
            let clade = chance.below(rust.nodes());
            for (tip, member) in members.iter_mut().enumerate() {
                *member = u8::from(tip < rust.tips() && is_below(&rust, tip, clade));
            }
        }
        Self { tree, members }
    }

    /// The call with a record of noise. Beside the set's bytes are others that mark what is no tip.
    fn called(&self, chance: &mut Chance, export: Export) -> Compared<Called> {
        let tree = &self.tree;
        let lent = Guarded::new(&self.members, |word| word as u8 | 1, chance);
        let mut record = Record(chance.words());
        record.set_index(word::ROOT, tree.root);
        let call =
            called(record, |words| export(&tree.pairs, &tree.parents, &tree.heights, lent.items(), words));
        if lent.kept_but(0) { Ok(call) } else { Err("the marks were written".into()) }
    }

    /// The Rust's tree, where there is one mark for each tip.
    fn judged(&self) -> Result<reference::tree::Tree, Refusal> {
        if self.members.len() == self.tree.nodes().div_ceil(2) {
            judged(&self.tree)
        } else {
            Err(Refusal::Size(self.tree.nodes() as u64))
        }
    }

    fn size(&self) -> usize {
        self.members.iter().filter(|&&member| member != 0).count()
    }

    /// The word by which an answer is counted, those on a single tip by their own.
    fn counted(&self, of_any: &'static str, of_one: &'static str) -> &'static str {
        if self.size() == 1 { of_one } else { of_any }
    }

    fn told(&self, fault: String) -> String {
        format!("{}, marks {:?}{fault}", shown(&self.tree), self.members)
    }
}

/// A byte that marks a tip.
fn mark(chance: &mut Chance) -> u8 {
    chance.pick(&[1, 2, 255])
}

fn is_below(tree: &reference::tree::Tree, tip: usize, clade: usize) -> bool {
    let mut node = Some(tip);
    while let Some(at) = node {
        if at == clade {
            return true;
        }
        node = tree.parent(at);
    }
    false
}

// ---- monophyly

/// Whether the set is monophyletic in the Rust.
fn holds(rust: &reference::tree::Tree, members: &[u8]) -> bool {
    let marks: Vec<bool> = members.iter().map(|&member| member != 0).collect();
    rust.is_monophyletic(&marks)
}

pub fn is_monophyletic(chance: &mut Chance) -> Compared<&'static str> {
    let set = Marked::any(chance);
    let call = set.called(chance, exports::rove_is_monophyletic)?;
    let result = match set.judged() {
        Err(why) => call.is_refused(why),
        Ok(rust) => {
            let is = holds(&rust, &set.members);
            let word = if is { set.counted("is", "is, of one tip") } else { "is not" };
            call.is(0, &answered(0, 0, 0, u64::from(is), 0)).map(|()| word)
        }
    };
    result.map_err(|fault| set.told(fault))
}

// ---- ages

/// The height by which a set is dated, none for an empty set: of one tip that of its parent, of more that of the first node
/// in postorder that is over all marked tips.
fn clade_height(tree: &reference::tree::Tree, members: &[u8]) -> Option<f64> {
    let tips: Vec<usize> = (0..tree.tips()).filter(|&tip| members[tip] != 0).collect();
    if let [tip] = tips[..] {
        return tree.parent(tip).map(|parent| tree.height(parent));
    }
    let mut below = vec![0; tree.nodes()];
    let mut over = |&node: &usize| {
        below[node] = match tree.children(node) {
            None => usize::from(members[node] != 0),
            Some((a, b)) => below[a] + below[b],
        };
        below[node] == tips.len() && !tips.is_empty()
    };
    tree.postorder().into_iter().find(|node| over(node)).map(|node| tree.height(node))
}

/// That the call gave an age, or was refused.
fn is_age(set: &Marked, call: &Called, age: Result<u64, Refusal>) -> Compared<&'static str> {
    match age {
        Ok(age) => call.is(0, &answered(0, 0, 0, age, 0)).map(|()| set.counted("given", "given, of one tip")),
        Err(Refusal::Parameter(0)) => {
            call.is_refused(Refusal::Parameter(0)).map(|word| set.counted(word, "5 for one tip"))
        }
        Err(why) => call.is_refused(why),
    }
}

pub fn clade_age(chance: &mut Chance) -> Compared<&'static str> {
    let set = Marked::any(chance);
    let call = set.called(chance, exports::rove_clade_age)?;
    let age = set.judged().and_then(|rust| {
        clade_height(&rust, &set.members).and_then(thousandths).ok_or(Refusal::Parameter(0))
    });
    is_age(&set, &call, age).map_err(|fault| set.told(fault))
}

// ---- single tips

/// A tip of a tree by itself: a clade, as the Rust has it, with the age of the node that has the tip among its children; by
/// the exported functions and by the wrapper.
pub fn single_tip(chance: &mut Chance, tally: &mut Tally) -> Compared<()> {
    let tips = shapes::tips(chance);
    let sample = Sample::tree(chance, tips);
    let tip = chance.below(tips);
    let mut set = Marked { tree: port_tree(&sample), members: vec![0; tips] };
    set.members[tip] = mark(chance);
    let is = holds(&rust_tree(&sample), &set.members);
    let is_parent = |&node: &usize| sample.pair(node).0 == tip || sample.pair(node).1 == tip;
    let stem = (tips..sample.nodes()).find(is_parent);
    let age = stem.and_then(|stem| thousandths(sample.heights[stem])).ok_or(Refusal::Parameter(0));
    let call = set.called(chance, exports::rove_is_monophyletic)?;
    call.is(0, &answered(0, 0, 0, u64::from(is), 0)).map_err(|fault| set.told(fault))?;
    let call = set.called(chance, exports::rove_clade_age)?;
    let word = is_age(&set, &call, age).map_err(|fault| set.told(fault))?;
    tally.also("a single tip", word, 1);
    let typed = (set.tree.is_monophyletic(&set.members), set.tree.clade_age(&set.members));
    if is && typed == (Ok(true), age) { Ok(()) } else { Err(set.told(format!(", by the wrapper {typed:?}"))) }
}
