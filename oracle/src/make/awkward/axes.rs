//! Axes: any that is accepted, uniform ones, and such as are nearly uniform.

use crate::make::axes::{adjacent, drawn, geometric, linspace, scattered, summed};
use crate::make::numbers::{above, below, two_to, Seed, LARGEST, LEAST};
use crate::{refusals, table_refusals};

#[derive(Clone, Copy)]
pub enum Family {
    Any,
    Uniform,
    /// Moved off a uniform axis by about as much as the uniform check allows.
    Bent,
}

/// Drawn again and again until it is accepted, and for Uniform until it is uniform.
pub fn axis(family: Family, count: usize, seed: &mut Seed) -> Vec<f64> {
    loop {
        let nodes = match family {
            Family::Any => any(count, seed),
            Family::Uniform => uniform(count, seed),
            Family::Bent => bent(count, seed),
        };
        let wanted = !matches!(family, Family::Uniform) || is_uniform(&nodes);
        if refusals::nodes(&nodes).is_ok() && wanted {
            return nodes;
        }
    }
}

fn is_uniform(nodes: &[f64]) -> bool {
    table_refusals::uniform(nodes).is_ok()
}

fn any(count: usize, seed: &mut Seed) -> Vec<f64> {
    match seed.under(9) {
        0 => drawn(seed, count),
        1 => scattered(seed, count),
        2 => adjacent(seed.spread(-1060, 1022), count),
        3 => adjacent(-LEAST * seed.under(count) as f64, count),
        4 => crowded(count, seed),
        5 => around_zero(count, seed),
        6 => far(count, seed),
        7 => geometric(seed.spread(-300, 0).abs(), 1.0 + 7.0 * seed.part(), count),
        _ => steps(count, seed),
    }
}

/// Neighbouring numbers and wide gaps in turn, as drawn.
fn crowded(count: usize, seed: &mut Seed) -> Vec<f64> {
    let mut nodes = vec![seed.spread(-30, 30)];
    while nodes.len() < count {
        let last = nodes[nodes.len() - 1];
        let next = match seed.under(3) {
            0 => last + seed.spread(-30, 30).abs(),
            1 => last + last.abs() * two_to(-50) * seed.part(),
            _ => last,
        };
        nodes.push(next.max(above(last)));
    }
    nodes
}

/// A zero of either sign among numbers of every size.
fn around_zero(count: usize, seed: &mut Seed) -> Vec<f64> {
    let mut nodes: Vec<f64> = (1..count).map(|_| seed.spread(-1073, 1000)).collect();
    nodes.push([0.0, -0.0][seed.under(2)]);
    nodes.sort_by(f64::total_cmp);
    nodes
}

/// From end to end of the finite numbers.
fn far(count: usize, seed: &mut Seed) -> Vec<f64> {
    let mut nodes: Vec<f64> = (2..count)
        .map(|_| LARGEST * (2.0 * seed.part() - 1.0))
        .collect();
    nodes.extend([-LARGEST, LARGEST]);
    nodes.sort_by(f64::total_cmp);
    nodes
}

/// Whole steps of one power of two, so that halfway is met exactly.
fn steps(count: usize, seed: &mut Seed) -> Vec<f64> {
    let unit = two_to(seed.under(2000) as i32 - 1070);
    let mut node = seed.under(200) as f64 - 100.0;
    let mut nodes = Vec::new();
    for _ in 0..count {
        nodes.push(node * unit);
        node += 1.0 + seed.under(9) as f64;
    }
    nodes
}

fn uniform(count: usize, seed: &mut Seed) -> Vec<f64> {
    match seed.under(6) {
        0 => summed(seed.spread(-8, 8), seed.spread(-8, 8).abs(), count),
        1 => linspace(seed.spread(-4, 4), 17.0 + seed.part(), count),
        2 => multiples(two_to(seed.under(2080) as i32 - 1074), count, seed),
        3 => multiples(seed.spread(-1000, 1000).abs(), count, seed),
        4 => wide(count, seed),
        _ => adjacent(seed.spread(-1060, 1022), count),
    }
}

fn multiples(gap: f64, count: usize, seed: &mut Seed) -> Vec<f64> {
    let first = seed.under(2 * count) as f64 - count as f64;
    (0..count).map(|i| (first + i as f64) * gap).collect()
}

/// So wide that the distance from end to end may overflow.
fn wide(count: usize, seed: &mut Seed) -> Vec<f64> {
    let half = (count - 1) as f64 / 2.0;
    let gap = LARGEST / half * (1.0 - 0.5 * seed.part());
    (0..count).map(|i| (i as f64 - half) * gap).collect()
}

fn bent(count: usize, seed: &mut Seed) -> Vec<f64> {
    let mut nodes = axis(Family::Uniform, count, seed);
    let place = 1 + seed.under(count - 1);
    let allowed = (nodes[1] - nodes[0]) * two_to(-42);
    let by = allowed * [1.0, 0.5, 2.0, 1.0 - two_to(-9)][seed.under(4)];
    let node = nodes[place];
    nodes[place] = match seed.under(4) {
        0 => above(node),
        1 => below(node),
        2 => node + by,
        _ => node - by,
    };
    nodes
}
