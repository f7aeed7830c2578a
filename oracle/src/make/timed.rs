//! Inputs for measurements: a uniform table, and readings all over it.

use super::axes::linspace;
use super::images::put_record;
use super::list::List;
use super::numbers::Seed;
use super::tables::{of_kind, Axes};
use super::values::Kind;
use crate::image::write::write;
use crate::rules::Rule;

fn axes(counts: &[usize]) -> Axes {
    counts.iter().map(|&n| linspace(0.0, 1.0, n)).collect()
}

fn point(axes: usize, seed: &mut Seed) -> Vec<f64> {
    (0..axes).map(|_| seed.part()).collect()
}

/// A whole run of the program with so many records of one kind.
pub fn records(kind: u8, counts: &[usize], records: usize) -> Vec<u8> {
    let mut seed = Seed::new();
    let mut run = write(&of_kind(&axes(counts), Kind::Mild, &mut seed));
    for _ in 0..records {
        put_record(kind, &point(counts.len(), &mut seed), &mut run);
    }
    run
}

/// A list of so many calls of one kind; with a reading too many each is refused before
/// the table's contents are judged.
pub fn calls(kind: u8, counts: &[usize], calls: usize, refused: bool) -> Vec<u8> {
    let mut seed = Seed::new();
    let mut list = List::default();
    list.table(&of_kind(&axes(counts), Kind::Mild, &mut seed));
    let axes = counts.len();
    let rule = match kind {
        0 => Rule::Linear,
        1 => Rule::LinearUniform,
        2 => Rule::Nearest,
        3 => Rule::Step(vec![0; axes]),
        _ => Rule::Step(vec![1; axes]),
    };
    for _ in 0..calls {
        let readings = point(axes + refused as usize, &mut seed);
        list.lookup(rule.clone(), &readings);
    }
    list.bytes()
}
