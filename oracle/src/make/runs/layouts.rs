//! Areas in every order, with gaps, and some that share bytes and are refused: more of them
//! are in `overlaps`.

use super::{each_kind, Run};
use crate::image::header::HEADER;
use crate::image::write::placed;
use crate::make::images::{in_order, one_area_for_all_axes, values_on_nodes};
use crate::make::numbers::Seed;
use crate::make::tables::{of_kind, with_values};
use crate::make::values::Kind;
use crate::table::Table;

const ORDERS: [[usize; 3]; 6] = [
    [0, 1, 2],
    [0, 2, 1],
    [1, 0, 2],
    [1, 2, 0],
    [2, 0, 1],
    [2, 1, 0],
];

fn answered(mut image: Vec<u8>, point: &[f64]) -> Run {
    each_kind(point, &mut image);
    image
}

fn ordered(seed: &mut Seed) -> Vec<Run> {
    let axes = [vec![0.0, 1.0, 2.0], vec![-1.0, 1.0]];
    let table = of_kind(&axes, Kind::Mild, seed);
    let mut runs = Vec::new();
    for order in ORDERS {
        for gap in [0, 8, 24] {
            runs.push(answered(in_order(&table, &order, gap), &[1.25, 0.5]));
        }
    }
    let axes = [
        vec![0.0, 1.0],
        vec![2.0, 3.0, 4.0],
        vec![5.0, 6.0],
        vec![7.0, 8.0],
    ];
    let table = of_kind(&axes, Kind::Mild, seed);
    for order in [[4, 3, 2, 1, 0], [2, 4, 0, 3, 1]] {
        let image = in_order(&table, &order, 16);
        runs.push(answered(image, &[0.75, 3.5, 5.25, 7.5]));
    }
    runs
}

/// The values start on the last node of the axis.
fn on_the_last_node() -> Vec<u8> {
    let table = with_values(&[vec![0.0, 1.0, 3.0]], vec![3.0, 10.0, 20.0]);
    let at = HEADER as u32;
    placed(&table, [at, 0, 0, 0], at + 16, at + 40)
}

/// Of two axes the second starts on the second node of the first.
fn a_node_apart(seed: &mut Seed) -> Vec<u8> {
    let axes = [vec![0.0, 1.0, 2.0], vec![1.0, 2.0, 3.0]];
    let table = of_kind(&axes, Kind::Mild, seed);
    let at = HEADER as u32;
    placed(&table, [at, at + 8, 0, 0], at + 32, at + 32 + 72)
}

fn shared(axes: usize, seed: &mut Seed) -> Vec<u8> {
    let table: Table = of_kind(&vec![vec![0.0, 1.0, 2.0]; axes], Kind::Mild, seed);
    one_area_for_all_axes(&table)
}

pub fn runs(seed: &mut Seed) -> Vec<Run> {
    let mut runs = ordered(seed);
    runs.push(answered(on_the_last_node(), &[2.0]));
    runs.push(answered(a_node_apart(seed), &[0.5, 2.75]));
    runs.push(answered(values_on_nodes(&[-1.0, -0.0, 1.0, 4.0]), &[2.5]));
    for axes in 2..=4 {
        runs.push(answered(
            shared(axes, seed),
            &[0.5, 1.25, 2.0, 0.75][..axes],
        ));
    }
    runs
}
