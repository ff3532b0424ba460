//! The exported functions, each as a safe function over slices. They have no precondition: each ends on any slices, and a
//! record of fewer than 32 words is answered with 3. What is believed here is that the declarations below are those of the
//! archive, where a slice is a pointer and a length.

macro_rules! slice {
    (read $t:ty) => {
        &[$t]
    };
    (lend $t:ty) => {
        &mut [$t]
    };
}

macro_rules! pointer {
    (read $t:ty) => { *const $t };
    (lend $t:ty) => { *mut $t };
}

macro_rules! place {
    (read $slice:ident) => {
        $slice.as_ptr()
    };
    (lend $slice:ident) => {
        $slice.as_mut_ptr()
    };
}

/// Functions that each take their slices, which they read or which are lent to them, and the record's words, which the C
/// functions take first.
macro_rules! exports {
    ($($name:ident($($slice:ident: $way:ident $t:ty),*);)*) => {
        $(
            #[inline]
            pub fn $name($($slice: slice!($way $t),)* words: &mut [u64]) -> u64 {
                unsafe extern "C" {
                    fn $name(words: *mut u64, _: usize $(, $slice: pointer!($way $t), _: usize)*) -> u64;
                }
                // SAFETY: each pair is the address and the length of a slice that is borrowed for the call.
                unsafe { $name(words.as_mut_ptr(), words.len() $(, place!($way $slice), $slice.len())*) }
            }
        )*
    };
}

// Of the crate rove.
exports! {
    rove_next_u64();
    rove_below();
    rove_new(pairs: read u16, heights: read f64, parents: lend u16);
    rove_validate(pairs: read u16, parents: read u16, heights: read f64);
    rove_postorder(pairs: read u16, parents: read u16, heights: read f64, order: lend u16);
    rove_node_height(pairs: read u16, parents: read u16, heights: lend f64);
    rove_slide_start(pairs: read u16, parents: read u16, heights: read f64);
    rove_subtree_slide(pairs: lend u16, parents: lend u16, heights: lend f64);
    rove_narrow_exchange(pairs: lend u16, parents: lend u16, heights: read f64);
    rove_wide_exchange(pairs: lend u16, parents: lend u16, heights: read f64);
    rove_wilson_balding(pairs: lend u16, parents: lend u16, heights: lend f64);
    rove_root_scale(pairs: read u16, parents: read u16, heights: lend f64);
    rove_tree_scale(pairs: read u16, parents: read u16, heights: lend f64);
}

// Of the crate rove_unvalidated.
exports! {
    rove_node_height_unvalidated(pairs: read u16, parents: read u16, heights: lend f64);
    rove_slide_start_unvalidated(pairs: read u16, parents: read u16, heights: read f64);
    rove_subtree_slide_unvalidated(pairs: lend u16, parents: lend u16, heights: lend f64);
    rove_narrow_exchange_unvalidated(pairs: lend u16, parents: lend u16, heights: read f64);
    rove_wide_exchange_unvalidated(pairs: lend u16, parents: lend u16, heights: read f64);
    rove_wilson_balding_unvalidated(pairs: lend u16, parents: lend u16, heights: lend f64);
    rove_root_scale_unvalidated(pairs: read u16, parents: read u16, heights: lend f64);
    rove_tree_scale_unvalidated(pairs: read u16, parents: read u16, heights: lend f64);
}

// Of the crate rove_parameters.
exports! {
    rove_scale();
    rove_clock_rate_scale();
    rove_birth_difference_scale();
    rove_birth_rate_scale();
    rove_relative_death_scale();
    rove_clock_sigma_scale(rates: read f64);
    rove_branch_rate_scale(rates: lend f64);
    rove_fbd_scale();
    rove_validate_ages(minima: read f64, maxima: read f64);
    rove_initialize(pairs: read u16, parents: read u16, heights: lend f64, minima: read f64, maxima: read f64);
    rove_propose_age(pairs: read u16, parents: read u16, heights: lend f64, minima: read f64, maxima: read f64);
    rove_yule_log_density(pairs: read u16, parents: read u16, heights: read f64);
    rove_clock(rates: read f64);
    rove_branch_rate(rates: read f64);
    rove_set_sigma(rates: read f64);
    rove_set_rate(rates: lend f64);
    rove_validate_priors();
    rove_is_monophyletic(pairs: read u16, parents: read u16, heights: read f64, members: read u8);
    rove_clade_age(pairs: read u16, parents: read u16, heights: read f64, members: read u8);
}

// Of the crate rove_values.
exports! {
    rove_uniform();
    rove_coin();
    rove_scaler();
    rove_initial_tuning();
    rove_changes_fbd();
    rove_changes_tree();
    rove_changes_topology();
    rove_estimates();
    rove_branch_length(parents: read u16, heights: read f64);
    rove_tree_length(parents: read u16, heights: read f64);
}

// Of the crate rove_newick.
exports! {
    rove_write_newick(pairs: read u16, parents: read u16, heights: read f64, out: lend u8);
    rove_read_newick(text: read u8, pairs: lend u16, ages: lend u64);
}

/// The generator of a seed, into words 0 to 3.
pub fn rove_seed(seed: u64, words: &mut [u64]) -> u64 {
    unsafe extern "C" {
        fn rove_seed(words: *mut u64, _: usize, seed: u64) -> u64;
    }
    // SAFETY: address and length of a slice that is borrowed for the call.
    unsafe { rove_seed(words.as_mut_ptr(), words.len(), seed) }
}

/// The answer to a state file, into the first bytes of `answer`: how many there are, or 0 with nothing written where they
/// do not fit.
pub fn rove_answer(file: &[u8], answer: &mut [u8]) -> usize {
    unsafe extern "C" {
        fn rove_answer(file: *const u8, _: usize, answer: *mut u8, _: usize) -> usize;
    }
    // SAFETY: addresses and lengths of slices that are borrowed for the call.
    unsafe { rove_answer(file.as_ptr(), file.len(), answer.as_mut_ptr(), answer.len()) }
}
