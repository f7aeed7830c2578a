//! Axes at the border of the uniform check, and cells that the uniform index misses.

use super::axes::{linspace, summed};
use super::list::List;
use super::numbers::{above, below, two_to, Seed, LARGEST};
use super::tables::{self, Axes};
use super::values::Kind;
use super::{points, uniform_check};

/// Document 01: every later gap differs from the first by at most its 2^-42.
fn accepted(nodes: &[f64]) -> bool {
    let step = nodes[1] - nodes[0];
    let fits = |pair: &[f64]| ((pair[1] - pair[0]) - step).abs() <= step * two_to(-42);
    nodes.windows(2).all(fits)
}

/// The axis up to a node, that node moved to the last number that is accepted and to the
/// first that is not, and one number further either way; the rest of the axis follows by
/// as much.
fn at_the_border(nodes: &[f64], place: usize, up: bool) -> Axes {
    let (on, back): (fn(f64) -> f64, fn(f64) -> f64) = match up {
        true => (above, below),
        false => (below, above),
    };
    let moved = |node: f64| {
        let by = node - nodes[place];
        let rest = nodes[place + 1..].iter().map(|later| later + by);
        let mut moved = [&nodes[..place], &[node]].concat();
        moved.extend(rest);
        moved
    };
    let fits = |node: f64| accepted(&moved(node)[..=place]);
    let tolerance = (nodes[1] - nodes[0]) * two_to(-42);
    let by = if up { tolerance } else { -tolerance };
    let mut last = nodes[place] + by;
    while !fits(last) {
        last = back(last);
    }
    while fits(on(last)) {
        last = on(last);
    }
    [back(last), last, on(last), on(on(last))]
        .map(moved)
        .to_vec()
}

/// Axes of several sizes, moved at the third and at the last node.
fn borders() -> Vec<Axes> {
    let axes = [
        summed(0.0, 1.0, 3),
        summed(1.0, 1.0, 5),
        summed(0.0, 0.1, 4),
        summed(-5.1, 0.7, 7),
        summed(0.0, two_to(-30) / 3.0, 4),
        linspace(1.0e300, 5.0e300, 5),
    ];
    let mut found = Vec::new();
    for nodes in axes {
        for up in [true, false] {
            found.push(at_the_border(&nodes, nodes.len() - 1, up));
            if nodes.len() > 4 {
                found.push(at_the_border(&nodes, 2, up));
            }
        }
    }
    found
}

fn ends_and_last_cell(list: &mut List, nodes: &[f64]) {
    let last = nodes[nodes.len() - 1];
    let before = nodes[nodes.len() - 2];
    list.linears(&[last]);
    list.linears(&[before + (last - before) * 0.75]);
    list.linear_uniform(&[below(last)]);
    list.linear_uniform(&[before]);
    list.linear_uniform(&[above(before)]);
}

fn bent(list: &mut List, seed: &mut Seed) {
    for axes in borders() {
        for nodes in axes {
            list.table(&tables::of_kind(&[nodes.clone()], Kind::Mild, seed));
            ends_and_last_cell(list, &nodes);
        }
    }
    for nodes in [
        uniform_check::around_default(),
        uniform_check::small_steps(),
    ]
    .concat()
    {
        list.table(&tables::of_kind(&[nodes.clone()], Kind::Mild, seed));
        list.linears(&[nodes[nodes.len() - 1]]);
        list.linear_uniform(&points::drawn(&[nodes], seed));
    }
}

/// A bent axis among others: the lowest such axis is told, and its first interval.
fn bent_among_others(list: &mut List, seed: &mut Seed) {
    let good = vec![0.0, 0.5, 1.0];
    let bent = vec![0.0, 1.0, 2.0, 3.0 + two_to(-41)];
    let early = vec![0.0, 1.0, 2.0 + two_to(-41), 3.0 + two_to(-40)];
    let inside = vec![0.0, 1.0, 2.0, 3.0 - two_to(-42)];
    for axes in [
        vec![bent.clone(), good.clone()],
        vec![good.clone(), bent.clone()],
        vec![bent.clone(), early.clone()],
        vec![inside.clone(), early.clone()],
        vec![inside.clone(), good.clone(), inside.clone()],
        vec![good.clone(), inside.clone(), bent.clone()],
        vec![good.clone(), bent.clone(), early.clone(), bent.clone()],
        vec![inside.clone(), good.clone(), good.clone(), early],
        vec![good.clone(), inside.clone(), good, inside],
    ] {
        list.table(&tables::of_kind(&axes, Kind::Mild, seed));
        list.linears(&points::last(&axes));
        list.linears(&points::drawn(&axes, seed));
        list.linear_uniform(&points::first(&axes));
        list.linear_uniform(&vec![f64::NAN; axes.len()]);
        list.linear_uniform(&vec![LARGEST; axes.len()]);
    }
}

/// On an axis of rounded sums the uniform index is off by one beside some nodes, up and
/// down; here beside all of them.
fn off_by_one(list: &mut List, seed: &mut Seed) {
    let nodes = summed(0.0, 0.1, 64);
    list.table(&tables::of_kind(&[nodes.clone()], Kind::Mild, seed));
    for &node in &nodes {
        for reading in [below(node), node, above(node)] {
            if (nodes[0]..=nodes[63]).contains(&reading) {
                list.linear_uniform(&[reading]);
            }
        }
        list.linear(&[node]);
    }
    for nodes in [summed(0.7, 0.7, 17), summed(-1.0, 1.0 / 3.0, 12)] {
        list.table(&tables::of_kind(&[nodes.clone()], Kind::Mild, seed));
        for &node in &nodes[1..nodes.len() - 1] {
            for reading in [below(node), node, above(node)] {
                list.linears(&[reading]);
            }
        }
    }
}

/// Uniform axes so wide that the distance to their first node overflows.
fn wide_axes() -> Axes {
    let eighth = two_to(1021);
    vec![
        vec![-LARGEST, 0.0, LARGEST],
        [-2.0, -1.0, 0.0, 1.0, 2.0]
            .map(|k| k * (LARGEST / 2.0))
            .to_vec(),
        (-7..=7).map(|k| k as f64 * eighth).collect(),
        (-3..=3).map(|k| k as f64 * two_to(1022)).collect(),
        vec![-LARGEST, -two_to(1022), LARGEST / 2.0],
    ]
}

/// About the last reading whose distance is finite.
fn overflowing(nodes: &[f64]) -> Vec<f64> {
    let bound = LARGEST + nodes[0];
    let mut readings = vec![below(bound), bound, above(bound)];
    for k in [969, 970, 971, 972] {
        readings.extend([bound + two_to(k), bound + below(two_to(k))]);
    }
    readings.extend([nodes[0], nodes[1], nodes[nodes.len() - 1]]);
    readings.extend([0.0, -1.0, two_to(1000), two_to(1022), two_to(1023)]);
    readings
}

fn far(list: &mut List, seed: &mut Seed) {
    for nodes in wide_axes() {
        let other = vec![0.0, 1.0];
        for kind in [Kind::Mild, Kind::Zeros] {
            list.table(&tables::of_kind(&[nodes.clone()], kind, seed));
            for reading in overflowing(&nodes) {
                list.linears(&[reading]);
            }
        }
        list.table(&tables::of_kind(&[other, nodes.clone()], Kind::Mild, seed));
        for reading in overflowing(&nodes) {
            list.linear_uniform(&[0.25, reading]);
        }
    }
}

pub fn add(list: &mut List, seed: &mut Seed) {
    bent(list, seed);
    bent_among_others(list, seed);
    off_by_one(list, seed);
    far(list, seed);
}
