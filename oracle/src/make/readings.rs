//! Readings for an axis: on its nodes, beside them, between them and outside.

use super::numbers::{above, below, two_to, Seed, LARGEST, LEAST};

/// Every node of a short axis; of a long one the ends, the middle and two drawn.
pub fn picked(count: usize, seed: &mut Seed) -> Vec<usize> {
    if count <= 5 {
        return (0..count).collect();
    }
    let mut picks = vec![0, 1, count / 2, count - 2, count - 1];
    picks.push(seed.under(count));
    picks.push(seed.under(count));
    picks.sort();
    picks.dedup();
    picks
}

pub fn beside(nodes: &[f64], picks: &[usize]) -> Vec<f64> {
    picks
        .iter()
        .flat_map(|&i| [below(nodes[i]), nodes[i], above(nodes[i])])
        .collect()
}

pub fn between(nodes: &[f64], picks: &[usize], seed: &mut Seed) -> Vec<f64> {
    let mut readings = Vec::new();
    for &i in picks {
        if i + 1 < nodes.len() {
            let gap = nodes[i + 1] - nodes[i];
            readings.push(nodes[i] + gap / 2.0);
            readings.push(nodes[i] + gap * seed.part());
        }
    }
    readings
}

fn outside(nodes: &[f64]) -> Vec<f64> {
    let (first, last) = (nodes[0], nodes[nodes.len() - 1]);
    let gap = nodes[1] - first;
    let last_gap = last - nodes[nodes.len() - 2];
    vec![
        first - gap,
        first - gap * 1000.0,
        last + last_gap,
        last + last_gap * 1000.0,
        -LARGEST,
        LARGEST,
    ]
}

fn around_zero() -> Vec<f64> {
    vec![0.0, -0.0, LEAST, -LEAST]
}

pub fn kept(readings: Vec<Vec<f64>>) -> Vec<f64> {
    let mut kept: Vec<f64> = Vec::new();
    for reading in readings.concat() {
        let known = kept.iter().any(|k| k.to_bits() == reading.to_bits());
        if reading.is_finite() && !known {
            kept.push(reading);
        }
    }
    kept
}

/// The full set, finite and each once.
pub fn full(nodes: &[f64], seed: &mut Seed) -> Vec<f64> {
    let picks = picked(nodes.len(), seed);
    let middle = picked(nodes.len().min(4), seed);
    kept(vec![
        beside(nodes, &picks),
        between(nodes, &middle, seed),
        outside(nodes),
        around_zero(),
    ])
}

/// A node, its neighbours, and two readings in each of up to four intervals.
pub fn few(nodes: &[f64], seed: &mut Seed) -> Vec<f64> {
    let node = seed.under(nodes.len());
    let intervals: Vec<usize> = (0..4).map(|_| seed.under(nodes.len() - 1)).collect();
    kept(vec![
        beside(nodes, &[node]),
        between(nodes, &intervals, seed),
    ])
}

/// On [0, 2^1000]: quotients that fall among the subnormal numbers, on and off ties.
pub fn tiny_quotients() -> Vec<f64> {
    let tie = two_to(-75);
    vec![
        tie,
        above(tie),
        below(tie),
        3.0 * tie,
        above(3.0 * tie),
        below(3.0 * tie),
        below(two_to(-22)),
        two_to(-22) * 1.2345678901234567,
    ]
}

/// On [0, 2^-1074]: the last quotients that are finite and the first that are not.
pub fn large_quotients() -> Vec<f64> {
    let bound = two_to(-50);
    vec![
        below(bound),
        bound,
        below(-bound),
        -bound,
        above(-bound),
        1.0,
    ]
}
