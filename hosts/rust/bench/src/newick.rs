//! Newick copies: the port's writer and reader beside plain Rust, written the obvious way: heights as floats times 1000,
//! numbers by `parse`, and no place of a fault.

use crate::moves::port_tree;
use crate::rounds::{Way, line, medians};
use cases::{Chance, Sample};
use rove::{LONGEST_NEWICK, Tree, WORDS, exports, word};
use std::fmt::Write;
use std::hint::black_box;

pub fn table() {
    println!("\n| Newick copy | nodes | plain Rust, ns | port | port over Rust |");
    println!("|---|---|---|---|---|");
    let any = |tips| Sample::plain(&mut Chance::new(7), tips);
    for (name, sample, times) in
        [("any", any(16), 2000), ("any", any(2048), 20), ("comb", Sample::comb(2048, true), 20)]
    {
        let tree = port_tree(&sample.closing());
        let text = written(&tree);
        assert_eq!(tree.newick().as_deref(), Ok(text.as_bytes()), "both write the same");
        let tree_read = rove::read_newick(text.as_bytes()).expect("a copy");
        assert_eq!(read(&text), Some((tree_read.pairs, tree_read.ages)), "both read the same");
        let nodes = tree.nodes().to_string();
        let seen = medians(times, &mut writing(&tree, times));
        println!("{}", line(&format!("{name}, written"), &nodes, &seen, &[(0, 1)]));
        let seen = medians(times, &mut reading(&text, times));
        println!("{}", line(&format!("{name}, read"), &nodes, &seen, &[(0, 1)]));
    }
}

fn writing(tree: &Tree, times: usize) -> Vec<Way<'_>> {
    vec![
        Box::new(move || {
            let tree = tree.clone();
            Box::new(move || (0..times).for_each(|_| drop(black_box(written(black_box(&tree))))))
        }),
        Box::new(move || {
            let (Tree { pairs, parents, heights, root }, mut words) = (tree.clone(), [0; WORDS]);
            words[word::ROOT] = root as u64;
            let mut out = vec![0; LONGEST_NEWICK];
            Box::new(move || {
                for _ in 0..times {
                    let out = black_box(&mut out);
                    black_box(exports::rove_write_newick(&pairs, &parents, &heights, out, &mut words));
                }
            })
        }),
    ]
}

fn reading(text: &str, times: usize) -> Vec<Way<'_>> {
    vec![
        Box::new(move || {
            let text = text.to_string();
            Box::new(move || (0..times).for_each(|_| drop(black_box(read(black_box(&text))))))
        }),
        Box::new(move || {
            let (text, mut words) = (text.as_bytes().to_vec(), [0; WORDS]);
            let (mut pairs, mut ages) = (vec![0; 8190], vec![0; 4095]);
            Box::new(move || {
                for _ in 0..times {
                    let lent = black_box((&mut pairs, &mut ages));
                    black_box(exports::rove_read_newick(black_box(&text), lent.0, lent.1, &mut words));
                }
            })
        }),
    ]
}

fn written(tree: &Tree) -> String {
    let mut text = String::new();
    put(&mut text, tree, tree.root);
    text.push(';');
    text
}

fn put(text: &mut String, tree: &Tree, node: usize) {
    if node < tree.tips() {
        write!(text, "{node}").expect("text");
        return;
    }
    let age = |node: usize| (tree.heights[node] * 1000.0) as u64;
    for side in 0..2 {
        let child = usize::from(tree.pairs[2 * node + side]);
        text.push(if side == 0 { '(' } else { ',' });
        put(text, tree, child);
        let length = age(node) - age(child);
        write!(text, ":{}.{:03}", length / 1000, length % 1000).expect("text");
    }
    text.push(')');
}

/// A node of the pairs, and the branch above it in thousandths.
type Branch = (usize, u64);

/// The pairs and ages of a copy.
fn read(text: &str) -> Option<(Vec<u16>, Vec<u64>)> {
    let tips = text.matches(',').count() + 1;
    let mut joins = Vec::with_capacity(tips - 1);
    if node(text, tips, &mut joins)?.1 != ";" {
        return None;
    }
    let mut pairs = vec![65_535; 2 * tips];
    let mut reach = vec![0; tips];
    for &[(a, x), (b, y)] in &joins {
        pairs.extend([a as u16, b as u16]);
        reach.push((reach[a] + x).max(reach[b] + y));
    }
    let mut ages = vec![*reach.last()?; reach.len()];
    for (at, join) in joins.iter().enumerate().rev() {
        for &(child, length) in join {
            ages[child] = ages[tips + at] - length;
        }
    }
    Some((pairs, ages))
}

/// The node that a text begins with, and the rest.
fn node<'a>(text: &'a str, tips: usize, joins: &mut Vec<[Branch; 2]>) -> Option<(usize, &'a str)> {
    let Some(inner) = text.strip_prefix('(') else {
        let (tip, rest) = text.split_at(text.find(':')?);
        return tip.parse().ok().filter(|&tip| tip < tips).map(|tip| (tip, rest));
    };
    let (first, rest) = branch(inner, tips, joins)?;
    let (second, rest) = branch(rest.strip_prefix(',')?, tips, joins)?;
    joins.push([first, second]);
    Some((tips + joins.len() - 1, rest.strip_prefix(')')?))
}

fn branch<'a>(text: &'a str, tips: usize, joins: &mut Vec<[Branch; 2]>) -> Option<(Branch, &'a str)> {
    let (child, rest) = node(text, tips, joins)?;
    let (whole, rest) = rest.strip_prefix(':')?.split_once('.')?;
    let (part, rest) = rest.split_at_checked(3)?;
    let length = whole.parse::<u64>().ok()? * 1000 + part.parse::<u64>().ok()?;
    Some(((child, length), rest))
}
