//! Axes that the primitives accept.

use super::numbers::{above, below, two_to, Seed, LARGEST, LEAST};

/// Adds `gap` again and again, so that the roundings gather.
pub fn summed(first: f64, gap: f64, count: usize) -> Vec<f64> {
    let mut nodes = vec![first];
    while nodes.len() < count {
        nodes.push(nodes[nodes.len() - 1] + gap);
    }
    nodes
}

/// first + gap * i, with gap = (last - first) / (count - 1).
pub fn linspace(first: f64, last: f64, count: usize) -> Vec<f64> {
    let gap = (last - first) / (count - 1) as f64;
    (0..count).map(|i| first + gap * i as f64).collect()
}

pub fn geometric(first: f64, ratio: f64, count: usize) -> Vec<f64> {
    let mut nodes = vec![first];
    while nodes.len() < count {
        nodes.push(nodes[nodes.len() - 1] * ratio);
    }
    nodes
}

/// Neighbouring numbers, no room between them.
pub fn adjacent(first: f64, count: usize) -> Vec<f64> {
    let mut nodes = vec![first];
    while nodes.len() < count {
        nodes.push(above(nodes[nodes.len() - 1]));
    }
    nodes
}

fn plain() -> Vec<Vec<f64>> {
    vec![
        vec![0.0, 1.0, 2.0, 4.0],
        vec![-1.0, 1.0],
        vec![0.0, two_to(1000)],
        vec![0.0, 3.0 * two_to(998), two_to(1001)],
        vec![-64.0, -32.5, -10.0, -3.0, -0.001],
        summed(0.1, 0.1, 17),
        summed(0.0, 0.1, 64),
        linspace(-1.0, 1.0, 63),
        linspace(1000.0, 1007.0, 64),
        geometric(two_to(-31), 2.0, 63),
        geometric(0.7, 1.5, 17),
        geometric(two_to(-1000), two_to(31), 64),
        adjacent(1.0, 3),
        adjacent(below(below(2.0)), 17),
    ]
}

fn around_zero() -> Vec<Vec<f64>> {
    vec![
        vec![-1.0, -0.0, 1.0],
        vec![-3.0, -2.0, -0.0, 0.5, 7.0],
        vec![-0.0, 1.0],
        vec![-1.0, -0.0],
        vec![-1.0, 0.0, 1.0],
        vec![-LEAST, -0.0, LEAST],
    ]
}

fn small() -> Vec<Vec<f64>> {
    vec![
        vec![0.0, LEAST],
        vec![
            0.0,
            two_to(-1074),
            two_to(-1073),
            two_to(-1072),
            two_to(-1071),
        ],
        (0..17).map(|k| k as f64 * LEAST).collect(),
        adjacent(below(below(two_to(-1022))), 5),
        vec![-two_to(-1040), 3.0 * two_to(-1050), two_to(-1020)],
    ]
}

/// The third's gap is wider than the largest finite number, and rounds to it.
fn huge() -> Vec<Vec<f64>> {
    vec![
        vec![-LARGEST, 0.0, LARGEST],
        vec![two_to(1023), LARGEST],
        vec![below(-two_to(969)), LARGEST],
        vec![-LARGEST, -two_to(1023), -1.0],
        vec![-LARGEST, -two_to(1022), LEAST, two_to(1022), LARGEST],
    ]
}

pub fn named() -> Vec<Vec<f64>> {
    [plain(), around_zero(), small(), huge()].concat()
}

/// Gaps of one size class, drawn.
pub fn drawn(seed: &mut Seed, count: usize) -> Vec<f64> {
    let scale = seed.spread(-40, 40).abs();
    let mut nodes = vec![scale * (32.0 * seed.part() - 32.0)];
    while nodes.len() < count {
        nodes.push(nodes[nodes.len() - 1] + scale * (0.01 + seed.part()));
    }
    nodes
}

/// Nodes of every size, drawn and put in order.
pub fn scattered(seed: &mut Seed, count: usize) -> Vec<f64> {
    let mut nodes: Vec<f64> = (0..count).map(|_| seed.spread(-1020, 1022)).collect();
    nodes.sort_by(f64::total_cmp);
    nodes
}

pub fn random(seed: &mut Seed) -> Vec<Vec<f64>> {
    let mut axes = Vec::new();
    for count in [2, 3, 5, 17, 63, 64] {
        axes.push(drawn(seed, count));
        axes.push(scattered(seed, count));
    }
    axes
}
