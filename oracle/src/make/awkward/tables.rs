//! Tables of 1 to 4 axes, and their images.

use super::axes::{self, Family};
use crate::image::load::load;
use crate::image::write::write;
use crate::make::images;
use crate::make::numbers::{Seed, LARGEST};
use crate::make::tables::with_values;
use crate::make::values::{self, KINDS};
use crate::table::Table;

/// The most values, and the most nodes of an axis.
const MOST: usize = 4096;
const MOST_NODES: usize = 64;

/// As many nodes as there is room for where each axis to come still gets two.
fn count(taken: usize, to_come: u32, seed: &mut Seed) -> usize {
    let most = MOST_NODES.min(MOST / taken / (1 << to_come));
    match seed.under(8) {
        0..=3 => 2 + seed.under(most.min(5) - 1),
        4 => most,
        _ => 2 + seed.under(most - 1),
    }
}

fn counts(seed: &mut Seed) -> Vec<usize> {
    let axes = 1 + seed.under(4) as u32;
    let mut counts = Vec::new();
    let mut taken = 1;
    for axis in 0..axes {
        let count = count(taken, axes - 1 - axis, seed);
        taken *= count;
        counts.push(count);
    }
    counts
}

fn values(size: usize, seed: &mut Seed) -> Vec<f64> {
    match seed.under(8) {
        0 => (0..size).map(|_| any_bits(seed)).collect(),
        1 => (0..size).map(|i| [LARGEST, -LARGEST][i % 2]).collect(),
        2 => (0..size).map(|_| seed.under(9) as f64 - 4.0).collect(),
        other => values::of_kind(KINDS[other - 3], size, seed),
    }
}

/// Any finite number, each bit pattern as often as the others.
fn any_bits(seed: &mut Seed) -> f64 {
    loop {
        let value = f64::from_bits(seed.word());
        if value.is_finite() {
            return value;
        }
    }
}

fn table(seed: &mut Seed) -> Table {
    let family = [Family::Any, Family::Uniform, Family::Bent, Family::Uniform][seed.under(4)];
    let counts = counts(seed);
    let axes: Vec<Vec<f64>> = counts
        .iter()
        .map(|&count| axes::axis(family, count, seed))
        .collect();
    let values = values(counts.iter().product(), seed);
    with_values(&axes, values)
}

/// Two to four axes of one count and with the same nodes.
fn alike(seed: &mut Seed) -> Vec<u8> {
    let axes = 2 + seed.under(3);
    let count = 2 + seed.under([63, 15, 7][axes - 2]);
    let nodes = axes::axis(Family::Uniform, count, seed);
    let values = values(count.pow(axes as u32), seed);
    write(&with_values(&vec![nodes; axes], values))
}

/// One axis, whose nodes are the values too.
fn nodes_as_values(seed: &mut Seed) -> Vec<u8> {
    let count = count(1, 0, seed);
    let nodes = axes::axis(Family::Any, count, seed);
    write(&with_values(&[nodes.clone()], nodes))
}

fn loaded(image: &[u8]) -> Table {
    match load(image) {
        Ok(table) => table,
        Err(no) => panic!("refused {} {} {}", no.number, no.axis, no.place),
    }
}

/// What the writer gives, or areas elsewhere.
pub fn with_image(seed: &mut Seed) -> (Table, Vec<u8>) {
    let image = match seed.under(10) {
        0 => alike(seed),
        1 => nodes_as_values(seed),
        2..=4 => images::drawn(&table(seed), seed),
        _ => write(&table(seed)),
    };
    (loaded(&image), image)
}
