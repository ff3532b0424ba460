//! Trees and their moves.

use crate::answer::{Answer, Refusal};
use crate::exports;
use crate::generator::Generator;
use crate::parameters::{Ages, Density, Process};
use crate::record::{Record, word};

/// A tree with node heights. Node k's children are at 2k and 2k + 1 of the pairs; 65,535 is no node: a tip has it twice,
/// and the root has it for its parent. Every call but those named `_unvalidated` and the two lengths looks whether this is
/// a tree.
#[derive(Clone, Debug, PartialEq)]
pub struct Tree {
    pub pairs: Vec<u16>,
    pub parents: Vec<u16>,
    pub heights: Vec<f64>,
    pub root: usize,
}

/// What a slide's first call draws.
#[derive(Clone, Copy, Debug, PartialEq)]
pub struct Started {
    pub node: usize,
    /// The two uniforms of the normal that the step is made of.
    pub uniforms: [f64; 2],
    pub draws: u64,
}

impl Started {
    /// The step of a slide of this size: the Rust's `normal` of the two uniforms, times the size.
    pub fn step(&self, size: f64) -> f64 {
        let [first, second] = self.uniforms;
        let radius = (-2.0 * (1.0 - first).ln()).sqrt();
        radius * (std::f64::consts::TAU * second).cos() * size
    }
}

/// The moves: each with the function that checks the tree first, and the one that does not. Where a tip's height is not
/// zero, a checked call or `validate` comes between TreeScale and a call that does not check.
macro_rules! moves {
    ($($(#[$about:meta])* $name:ident, $unvalidated:ident: $export:ident, $bare:ident
        [$($pairs:tt)+] [$($heights:tt)+] ($($parameter:ident: $t:ty => $set:ident $place:ident),*);)*) => {
        $(
            $(#[$about])*
            #[inline]
            pub fn $name(&mut self, $($parameter: $t,)* generator: &mut Generator, allowance: u64) -> Answer {
                let record = self.drawing(generator, allowance);
                $(record.$set(word::$place, $parameter);)*
                let code = exports::$export(
                    $($pairs)+ self.pairs, $($pairs)+ self.parents, $($heights)+ self.heights, &mut record.0);
                self.taken(code, record)
            }

            /// The same without a look at the tree: for one that was accepted and has only been changed by these
            /// calls. After `tree_scale` or `tree_scale_unvalidated` on a tree with a tip whose height is not zero, a
            /// checked call or `validate` comes first: a tip may have come to stand above its parent, and such a tree
            /// is not accepted. On any other tree this is safe and ends, leaves the tree as it was unless it moved, and counts
            /// its draws truly; which answer it gives is undecided.
            #[inline]
            pub fn $unvalidated(&mut self, $($parameter: $t,)* generator: &mut Generator, allowance: u64) -> Answer {
                let record = self.drawing(generator, allowance);
                $(record.$set(word::$place, $parameter);)*
                let code = exports::$bare(
                    $($pairs)+ self.pairs, $($pairs)+ self.parents, $($heights)+ self.heights, &mut record.0);
                self.taken(code, record)
            }
        )*
    };
}

impl Tree {
    /// The tree of pairs and heights.
    pub fn new(pairs: Vec<u16>, heights: Vec<f64>) -> Result<Self, Refusal> {
        let mut record = Record::empty();
        let mut parents = vec![0; heights.len()];
        let code = exports::rove_new(&pairs, &heights, &mut parents, &mut record.0);
        record.verdict(code)?;
        let root = record.0[word::ROOT] as usize;
        Ok(Self { pairs, parents, heights, root })
    }

    pub fn nodes(&self) -> usize {
        self.pairs.len() / 2
    }

    pub fn tips(&self) -> usize {
        self.nodes().div_ceil(2)
    }

    pub fn validate(&self) -> Result<(), Refusal> {
        let mut record = self.record();
        let code = exports::rove_validate(&self.pairs, &self.parents, &self.heights, &mut record.0);
        record.verdict(code)
    }

    /// Every node, with both children before their parent.
    pub fn postorder(&self) -> Result<Vec<u16>, Refusal> {
        let mut record = self.record();
        let mut order = vec![0; self.nodes()];
        let code =
            exports::rove_postorder(&self.pairs, &self.parents, &self.heights, &mut order, &mut record.0);
        record.verdict(code)?;
        Ok(order)
    }

    /// The length of the branch above a node; 0 above the root.
    pub fn branch_length(&self, node: usize) -> Result<f64, Refusal> {
        let mut record = self.record();
        record.set_index(word::NODE, node);
        let code = exports::rove_branch_length(&self.parents, &self.heights, &mut record.0);
        record.verdict(code)?;
        Ok(record.float(word::FIRST))
    }

    /// The lengths of all branches, added up in the order of the nodes.
    pub fn tree_length(&self) -> Result<f64, Refusal> {
        let mut record = self.record();
        let code = exports::rove_tree_length(&self.parents, &self.heights, &mut record.0);
        record.verdict(code)?;
        Ok(record.float(word::FIRST))
    }

    moves! {
        /// A new height for an internal node between its taller child and its parent.
        node_height, node_height_unvalidated: rove_node_height, rove_node_height_unvalidated [&] [&mut] ();
        /// The second call of a slide: the node's parent goes up or down by the step.
        subtree_slide, subtree_slide_unvalidated: rove_subtree_slide, rove_subtree_slide_unvalidated [&mut] [&mut]
            (node: usize => set_index NODE, step: f64 => set_float TUNING);
        /// A grandchild and its uncle change places.
        narrow_exchange, narrow_exchange_unvalidated: rove_narrow_exchange, rove_narrow_exchange_unvalidated
            [&mut] [&] ();
        /// Two nodes change places.
        wide_exchange, wide_exchange_unvalidated: rove_wide_exchange, rove_wide_exchange_unvalidated [&mut] [&] ();
        /// A node's parent goes onto another branch.
        wilson_balding, wilson_balding_unvalidated: rove_wilson_balding, rove_wilson_balding_unvalidated
            [&mut] [&mut] ();
        /// The root's height is scaled.
        root_scale, root_scale_unvalidated: rove_root_scale, rove_root_scale_unvalidated [&] [&mut]
            (tuning: f64 => set_float TUNING);
        /// All internal heights are scaled. A tip whose height is not zero may come to stand above its parent, and such
        /// a tree is not accepted: a checked call or `validate` comes next, which refuses it.
        tree_scale, tree_scale_unvalidated: rove_tree_scale, rove_tree_scale_unvalidated [&] [&mut]
            (tuning: f64 => set_float TUNING);
    }

    /// The first call of a slide: its node, and the uniforms of its step.
    #[inline]
    pub fn slide_start(&self, generator: &mut Generator, allowance: u64) -> Result<Started, Refusal> {
        let record = self.drawing(generator, allowance);
        let code = exports::rove_slide_start(&self.pairs, &self.parents, &self.heights, &mut record.0);
        started(code, record)
    }

    /// The same without a look at the tree.
    #[inline]
    pub fn slide_start_unvalidated(
        &self,
        generator: &mut Generator,
        allowance: u64,
    ) -> Result<Started, Refusal> {
        let record = self.drawing(generator, allowance);
        let code =
            exports::rove_slide_start_unvalidated(&self.pairs, &self.parents, &self.heights, &mut record.0);
        started(code, record)
    }

    /// Puts every tip at the middle of its ages and the internal nodes above them, under the process's origin.
    pub fn initialize(&mut self, ages: &Ages, process: &Process) -> Result<(), Refusal> {
        let mut record = self.record();
        process.put(&mut record);
        let code = exports::rove_initialize(
            &self.pairs,
            &self.parents,
            &mut self.heights,
            &ages.minima,
            &ages.maxima,
            &mut record.0,
        );
        record.verdict(code)
    }

    /// A new height for a tip within its ages and under its parent.
    pub fn propose_age(
        &mut self,
        ages: &Ages,
        process: &Process,
        generator: &mut Generator,
        allowance: u64,
    ) -> Answer {
        let record = self.drawing(generator, allowance);
        process.put(record);
        let code = exports::rove_propose_age(
            &self.pairs,
            &self.parents,
            &mut self.heights,
            &ages.minima,
            &ages.maxima,
            &mut record.0,
        );
        self.taken(code, record)
    }

    /// The terms of the Yule density at a rate.
    pub fn yule_log_density(&self, rate: f64) -> Result<Density, Refusal> {
        let mut record = self.record();
        record.set_float(word::PARAMETERS, rate);
        let code = exports::rove_yule_log_density(&self.pairs, &self.parents, &self.heights, &mut record.0);
        record.verdict(code)?;
        Ok(Density::of(code, &record))
    }

    /// Whether some node has exactly the marked tips below it; a mark is a byte other than 0, one for each tip.
    pub fn is_monophyletic(&self, members: &[u8]) -> Result<bool, Refusal> {
        let mut record = self.record();
        let code =
            exports::rove_is_monophyletic(&self.pairs, &self.parents, &self.heights, members, &mut record.0);
        record.verdict(code)?;
        Ok(record.0[word::FIRST] != 0)
    }

    /// The age of the clade of the marked tips, in whole thousandths: the height of the first node in postorder over all of
    /// them, and of a single tip that of its parent, the upper end of its stem.
    pub fn clade_age(&self, members: &[u8]) -> Result<u64, Refusal> {
        let mut record = self.record();
        let code = exports::rove_clade_age(&self.pairs, &self.parents, &self.heights, members, &mut record.0);
        record.verdict(code)?;
        Ok(record.0[word::FIRST])
    }

    /// The record of a call that does not draw.
    pub(crate) fn record(&self) -> Record {
        let mut record = Record::empty();
        record.set_index(word::ROOT, self.root);
        record
    }

    /// The record of a call that may draw so often.
    #[inline]
    fn drawing<'a>(&self, generator: &'a mut Generator, allowance: u64) -> &'a mut Record {
        let record = generator.allowed(allowance);
        record.set_index(word::ROOT, self.root);
        record
    }

    /// What a call has left in its record.
    #[inline]
    fn taken(&mut self, code: u64, record: &Record) -> Answer {
        self.root = record.0[word::ROOT] as usize;
        record.answer(code)
    }
}

#[inline]
fn started(code: u64, record: &Record) -> Result<Started, Refusal> {
    record.verdict(code)?;
    Ok(Started {
        node: record.0[word::NODE] as usize,
        uniforms: [record.float(word::FIRST), record.float(word::SECOND)],
        draws: record.0[word::DRAWS],
    })
}
