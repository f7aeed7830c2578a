//! Linear and LinearUniform on accepted tables, with few slices of the largest ones.

use super::list::List;
use super::numbers::Seed;
use super::tables::{self, Axes};
use super::values::{Kind, KINDS};
use super::{linear_tables, points, sliced};
use crate::rules::Rule;

/// For every choice of axes two points that are on nodes of just those.
fn mixed(axes: &Axes, seed: &mut Seed) -> Vec<Vec<f64>> {
    let mut found = Vec::new();
    for mask in 0..1 << axes.len() {
        found.push(points::mixed(axes, mask, seed));
        found.push(points::mixed(axes, mask, seed));
    }
    found
}

/// Both, on values of like size and on values of one more kind.
fn uniform(list: &mut List, axes: &Axes, kind: Kind, seed: &mut Seed) {
    list.table(&tables::of_kind(axes, Kind::Mild, seed));
    for point in points::blend_walk(axes, seed) {
        list.linears(&point);
    }
    list.table(&tables::of_kind(axes, kind, seed));
    for point in mixed(axes, seed) {
        list.linears(&point);
    }
}

/// Linear, and LinearUniform once.
fn apart(list: &mut List, axes: &Axes, kind: Kind, seed: &mut Seed) {
    list.table(&tables::of_kind(axes, kind, seed));
    list.linear_uniform(&points::drawn(axes, seed));
    for point in points::blend_walk(axes, seed) {
        list.linear(&point);
    }
    for point in mixed(axes, seed) {
        list.linear(&point);
    }
}

/// At every node of a table with few of them, so all axes are exact.
fn every_node(list: &mut List, seed: &mut Seed) {
    let axes = vec![vec![-1.0, -0.0, 1.0], vec![0.0, 0.5], vec![0.0, 1.0, 2.0]];
    for kind in [Kind::Wide, Kind::Zeros] {
        list.table(&tables::of_kind(&axes, kind, seed));
        for point in points::product(&axes) {
            list.linears(&point);
        }
    }
}

fn large(list: &mut List, axes: &Axes, seed: &mut Seed) {
    list.table(&tables::of_kind(axes, Kind::Mild, seed));
    let mut read = vec![points::first(axes), points::last(axes)];
    read.extend(mixed(axes, seed));
    for _ in 0..12 {
        read.push(points::drawn(axes, seed));
    }
    for point in read {
        list.linears(&point);
    }
}

pub fn add(list: &mut List, seed: &mut Seed) {
    for (place, axes) in linear_tables::uniform().iter().enumerate() {
        uniform(list, axes, KINDS[1 + place % 4], seed);
    }
    let apart_axes = [tables::of_one_axis(), linear_tables::apart(seed)].concat();
    for (place, axes) in apart_axes.iter().enumerate() {
        apart(list, axes, KINDS[place % 5], seed);
    }
    every_node(list, seed);
    let slices = [
        vec![],
        vec![(Rule::Linear, 0), (Rule::LinearUniform, 0)],
        vec![
            (Rule::Linear, 0),
            (Rule::LinearUniform, 0),
            (Rule::Nearest, 1),
            (Rule::Step(vec![0, 1]), 0),
        ],
        vec![(Rule::Linear, 0), (Rule::Step(vec![0, 1, 1]), 2)],
        vec![(Rule::LinearUniform, 0), (Rule::Nearest, 2)],
    ];
    for (axes, slices) in linear_tables::large().iter().zip(slices) {
        large(list, axes, seed);
        sliced::few(list, axes, &slices);
    }
}
