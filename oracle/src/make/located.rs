//! The four search primitives on accepted axes.

use super::list::List;
use super::numbers::{not_finite, two_to, Seed, LARGEST, LEAST};
use super::{axes, readings};

/// Document 01: the count of nodes strictly below, less 1, held between 0 and n-2.
fn lower_of(nodes: &[f64], reading: f64) -> u64 {
    let below = nodes.iter().filter(|&&node| node < reading).count();
    below.saturating_sub(1).min(nodes.len() - 2) as u64
}

fn all_four(list: &mut List, nodes: &[f64], reading: f64) {
    list.lower(reading);
    list.exact(lower_of(nodes, reading), reading);
    list.locate(reading);
    list.step(0, reading);
    list.step(1, reading);
}

/// Lent lower indexes on, beside and far from the node that is read.
fn lent_lower_indexes(list: &mut List, nodes: &[f64], seed: &mut Seed) {
    let count = nodes.len() as u64;
    let node = seed.under(nodes.len());
    let near = node as u64;
    let mut lent = vec![0, near.saturating_sub(1), near, near + 1];
    lent.extend([count - 2, count - 1, count]);
    lent.sort();
    lent.dedup();
    for lower in lent {
        list.exact(lower, nodes[node]);
    }
    list.exact(u64::MAX, nodes[node]);
}

fn refused_beside_the_axis(list: &mut List, nodes: &[f64]) {
    let count = nodes.len() as u64;
    for reading in not_finite() {
        all_four(list, nodes, reading);
        list.exact(count - 1, reading);
        list.step(2, reading);
    }
    for direction in [2, 3, 128, 255] {
        list.step(direction, nodes[0]);
    }
    for lower in [1 << 8, 1 << 32, 1 << 63] {
        list.exact(lower, nodes[0]);
    }
}

fn quotients(list: &mut List) {
    list.axis(&[0.0, two_to(1000)]);
    for reading in readings::tiny_quotients() {
        list.locate(reading);
    }
    list.axis(&[0.0, LEAST]);
    for reading in readings::large_quotients() {
        list.locate(reading);
    }
    list.axis(&[LARGEST / 2.0, LARGEST]);
    for reading in [-LARGEST, -LARGEST / 2.0, -LARGEST / 4.0] {
        list.locate(reading);
    }
}

pub fn add(list: &mut List, seed: &mut Seed) {
    for (place, nodes) in axes::named().iter().enumerate() {
        list.axis(nodes);
        for reading in readings::full(nodes, seed) {
            all_four(list, nodes, reading);
        }
        lent_lower_indexes(list, nodes, seed);
        if place % 8 == 0 {
            refused_beside_the_axis(list, nodes);
        }
    }
    for nodes in axes::random(seed) {
        list.axis(&nodes);
        for reading in readings::few(&nodes, seed) {
            all_four(list, &nodes, reading);
        }
    }
    quotients(list);
}
