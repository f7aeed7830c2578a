//! Readings for a table: most of them within its axes.

use crate::make::numbers::{above, below, not_finite, two_to, Seed, LARGEST, LEAST};

/// One in ten has a wild reading on one axis or on several.
pub fn point(grid: &[&[f64]], seed: &mut Seed) -> Vec<f64> {
    let mut point: Vec<f64> = grid.iter().map(|nodes| tame(nodes, seed)).collect();
    if seed.under(10) == 0 {
        for _ in 0..1 + seed.under(2) {
            let axis = seed.under(grid.len());
            point[axis] = wild(grid[axis], seed);
        }
    }
    point
}

/// On a node, beside it, halfway, beside that, or anywhere in a cell. One that lies
/// outside is kept one time in eight.
fn tame(nodes: &[f64], seed: &mut Seed) -> f64 {
    let node = nodes[seed.under(nodes.len())];
    let reading = match seed.under(16) {
        0..=3 => node,
        4 => above(node),
        5 => below(node),
        6 => [0.0, -0.0, LEAST, -LEAST, two_to(-60), -two_to(-60)][seed.under(6)],
        _ => in_cell(nodes, seed),
    };
    let inside = (nodes[0]..=nodes[nodes.len() - 1]).contains(&reading);
    if inside || seed.under(8) == 0 {
        reading
    } else {
        node
    }
}

fn in_cell(nodes: &[f64], seed: &mut Seed) -> f64 {
    let i = seed.under(nodes.len() - 1);
    let (low, gap) = (nodes[i], nodes[i + 1] - nodes[i]);
    let middle = low + gap / 2.0;
    match seed.under(9) {
        0 => middle,
        1 => above(middle),
        2 => below(middle),
        3 => middle - gap * two_to(-50 - seed.under(6) as i32),
        4 => low + gap * two_to(-(seed.under(64) as i32)),
        5 => nodes[i + 1] - gap * two_to(-(seed.under(64) as i32)),
        _ => low + gap * seed.part(),
    }
}

/// Outside, by an ulp or far, infinite, or a NaN of any pattern.
fn wild(nodes: &[f64], seed: &mut Seed) -> f64 {
    let (first, last) = (nodes[0], nodes[nodes.len() - 1]);
    match seed.under(8) {
        0 => below(first),
        1 => above(last),
        2 => first - seed.spread(-40, 40).abs(),
        3 => last + seed.spread(-40, 40).abs(),
        4 => [LARGEST, -LARGEST][seed.under(2)],
        5 => not_finite()[seed.under(5)],
        6 => f64::from_bits(0x7ff0_0000_0000_0000 | seed.word()),
        _ => f64::from_bits(seed.word()),
    }
}
