//! Values of a table.

use super::numbers::{below, two_to, Seed, LARGEST, LEAST};

#[derive(Clone, Copy)]
pub enum Kind {
    /// Of like size, so that the rounding of every corner shows in the result.
    Mild,
    /// Those of `distinct`: of every size, with the edges among them.
    Wide,
    /// Zeros of both signs and, less often, the least numbers of both signs.
    Zeros,
    /// Below 2^-1022.
    Subnormal,
    /// Near the largest number, of both signs.
    Huge,
}

pub const KINDS: [Kind; 5] = [
    Kind::Mild,
    Kind::Wide,
    Kind::Zeros,
    Kind::Subnormal,
    Kind::Huge,
];

pub fn of_kind(kind: Kind, count: usize, seed: &mut Seed) -> Vec<f64> {
    let zeros = [0.0, -0.0, 0.0, -0.0, LEAST, -LEAST];
    match kind {
        Kind::Mild => (0..count).map(|_| seed.spread(-3, 4)).collect(),
        Kind::Wide => distinct(count, seed),
        Kind::Zeros => (0..count).map(|_| zeros[seed.under(6)]).collect(),
        Kind::Subnormal => (0..count).map(|_| seed.spread(-1073, -1022)).collect(),
        Kind::Huge => (0..count).map(|_| huge(seed)).collect(),
    }
}

/// The last bits are drawn, so that roundings differ.
fn huge(seed: &mut Seed) -> f64 {
    let magnitude = LARGEST * (1.0 - 0.125 * seed.part());
    if seed.word() >> 63 == 0 {
        magnitude
    } else {
        -magnitude
    }
}

fn edges() -> Vec<f64> {
    vec![
        -0.0,
        LARGEST,
        LEAST,
        -LARGEST,
        0.0,
        -LEAST,
        below(two_to(-1022)),
        -two_to(-1040),
    ]
}

/// No two alike, so that a wrong place shows. Drawn; as often as there is room the edges,
/// in turn, at every third place.
pub fn distinct(count: usize, seed: &mut Seed) -> Vec<f64> {
    let mut edges = edges();
    let first = seed.under(edges.len());
    edges.rotate_left(first);
    let mut values = Vec::new();
    for place in 0..count {
        match edges.get(place / 3) {
            Some(&edge) if place % 3 == 1 => values.push(edge),
            _ => values.push(unlike(&values, seed)),
        }
    }
    values
}

fn unlike(values: &[f64], seed: &mut Seed) -> f64 {
    loop {
        let value = seed.spread(-1000, 1000);
        if values.iter().all(|&known| known != value) {
            return value;
        }
    }
}
