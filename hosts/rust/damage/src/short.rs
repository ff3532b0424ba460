//! Records of fewer than 32 words: every function returns 3 and writes nothing.

use rove::{WORDS, exports};

type Call = fn(&mut [u16], &mut [u16], &mut [f64], &mut [f64], &mut [u64]) -> u64;

/// A function over slices, brought to one form: two of nodes, two of floats, and the record.
macro_rules! calls {
    ($($name:ident($($slice:ident),*))*) => {
        &[$((stringify!($name), |_a, _b, _x, _y, words| exports::$name($(calls!(@ $slice _a _b _x _y),)* words))),*]
    };
    (@ pairs $a:ident $b:ident $x:ident $y:ident) => { $a };
    (@ parents $a:ident $b:ident $x:ident $y:ident) => { $b };
    (@ heights $a:ident $b:ident $x:ident $y:ident) => { $x };
    (@ floats $a:ident $b:ident $x:ident $y:ident) => { $y };
    (@ marks $a:ident $b:ident $x:ident $y:ident) => { &[0; 2] };
    (@ order $a:ident $b:ident $x:ident $y:ident) => { &mut [0; 3] };
    (@ text $a:ident $b:ident $x:ident $y:ident) => { b"(0:1.000,1:1.000);" };
    (@ copy $a:ident $b:ident $x:ident $y:ident) => { &mut [0; 20] };
    (@ ages $a:ident $b:ident $x:ident $y:ident) => { &mut [0; 3] };
}

const MOVES: &[(&str, Call)] = calls! {
    rove_next_u64() rove_below()
    rove_new(pairs, heights, parents) rove_validate(pairs, parents, heights)
    rove_postorder(pairs, parents, heights, order)
    rove_node_height(pairs, parents, heights) rove_slide_start(pairs, parents, heights)
    rove_subtree_slide(pairs, parents, heights) rove_narrow_exchange(pairs, parents, heights)
    rove_wide_exchange(pairs, parents, heights) rove_wilson_balding(pairs, parents, heights)
    rove_root_scale(pairs, parents, heights) rove_tree_scale(pairs, parents, heights)
};

const UNVALIDATED: &[(&str, Call)] = calls! {
    rove_node_height_unvalidated(pairs, parents, heights) rove_slide_start_unvalidated(pairs, parents, heights)
    rove_subtree_slide_unvalidated(pairs, parents, heights) rove_narrow_exchange_unvalidated(pairs, parents, heights)
    rove_wide_exchange_unvalidated(pairs, parents, heights) rove_wilson_balding_unvalidated(pairs, parents, heights)
    rove_root_scale_unvalidated(pairs, parents, heights) rove_tree_scale_unvalidated(pairs, parents, heights)
};

const PARAMETERS: &[(&str, Call)] = calls! {
    rove_scale() rove_clock_rate_scale() rove_birth_difference_scale() rove_birth_rate_scale()
    rove_relative_death_scale() rove_clock_sigma_scale(floats) rove_branch_rate_scale(floats) rove_fbd_scale()
    rove_initialize(pairs, parents, heights, floats, floats) rove_propose_age(pairs, parents, heights, floats, floats)
    rove_yule_log_density(pairs, parents, heights) rove_clock(floats) rove_branch_rate(floats)
    rove_set_sigma(floats) rove_set_rate(floats) rove_validate_priors() rove_validate_ages(floats, floats)
    rove_is_monophyletic(pairs, parents, heights, marks) rove_clade_age(pairs, parents, heights, marks)
};

const VALUES: &[(&str, Call)] = calls! {
    rove_uniform() rove_coin() rove_scaler() rove_initial_tuning() rove_changes_fbd() rove_changes_tree()
    rove_changes_topology() rove_estimates() rove_branch_length(parents, heights) rove_tree_length(parents, heights)
};

const NEWICK: &[(&str, Call)] = calls! {
    rove_write_newick(pairs, parents, heights, copy) rove_read_newick(text, pairs, ages)
};

/// The tree of two tips, on which each call would do something.
pub fn records() -> Result<String, String> {
    let mut count = 0;
    for &(name, call) in [MOVES, UNVALIDATED, PARAMETERS, VALUES, NEWICK].into_iter().flatten() {
        for length in 0..WORDS {
            let mut slices = (
                vec![65_535, 65_535, 65_535, 65_535, 0, 1],
                vec![2, 2, 65_535],
                vec![0.0, 0.0, 1.0],
                vec![1.0, 1.0],
            );
            let mut words: Vec<u64> = (1..=length as u64).collect();
            let before = (slices.clone(), words.clone());
            let code = call(&mut slices.0, &mut slices.1, &mut slices.2, &mut slices.3, &mut words);
            if code != 3 || (slices, words) != before {
                return Err(format!(
                    "{name} with a record of {length} words returned {code}, or wrote something"
                ));
            }
            count += 1;
        }
    }
    Ok(format!("damage: {count} calls with too short a record, nothing written"))
}
