//! Slices, then lookups in them: what the whole table gives.

use ngamsothul::Direction::{Lower, Upper};
use ngamsothul::{Direction, Refusal, Shape, Table};

const COUNTS: [usize; 3] = [3, 4, 2];
const NODES: [f64; 9] = [0.0, 1.0, 2.0, -1.0, 0.25, 0.5, 8.0, 10.0, 20.0];
const FIRSTS: [f64; 5] = [0.0, 0.3, 1.0, 1.7, 2.0];
const SECONDS: [f64; 6] = [-1.0, -0.2, 0.25, 0.375, 3.0, 8.0];
const THIRDS: [f64; 4] = [10.0, 13.3, 15.0, 20.0];

fn values() -> Vec<f64> {
    (0..24).map(|i| (i * i) as f64 / 7.0 - 11.0).collect()
}

/// The nodes that are left without an axis.
fn nodes_without(axis: usize) -> Vec<f64> {
    let first: usize = COUNTS[..axis].iter().sum();
    [&NODES[..first], &NODES[first + COUNTS[axis]..]].concat()
}

fn points() -> Vec<[f64; 3]> {
    let mut points = Vec::new();
    for a in FIRSTS {
        for b in SECONDS {
            points.extend(THIRDS.map(|c| [a, b, c]));
        }
    }
    points
}

fn without<T: Copy>(things: &[T], axis: usize) -> Vec<T> {
    [&things[..axis], &things[axis + 1..]].concat()
}

type Cut = fn(&Table, usize, f64, &mut [f64]) -> Result<Shape, Refusal>;
type Rule = fn(&Table, &[f64], usize) -> Result<f64, Refusal>;

/// A rule takes the axis that is removed, or 3 where none is.
fn holds(axis: usize, cut: Cut, rule: Rule) {
    let (values, nodes) = (values(), nodes_without(axis));
    let table = Table::new(&COUNTS, &NODES, &values);
    let mut compared = 0;
    for point in points() {
        let mut out = [f64::NAN; 24];
        let shape = cut(&table, axis, point[axis], &mut out).unwrap();
        assert_eq!(shape.counts(), without(&COUNTS, axis));
        let sliced = rule(&shape.table(&nodes, &out), &without(&point, axis), axis).unwrap();
        assert_eq!(sliced.to_bits(), rule(&table, &point, 3).unwrap().to_bits(), "axis {axis} at {point:?}");
        assert!(out[shape.values()..].iter().all(|value| value.is_nan()));
        compared += 1;
    }
    assert_eq!(compared, 120);
}

#[test]
fn linears() {
    holds(0, |t, axis, x, out| t.slice_linear(axis, x, out), |t, point, _| t.linear(point));
}

#[test]
fn nearest() {
    for axis in 0..3 {
        holds(axis, |t, axis, x, out| t.slice_nearest(axis, x, out), |t, point, _| t.nearest(point));
    }
}

const DIRECTIONS: [Direction; 3] = [Lower, Upper, Lower];

#[test]
fn step() {
    let rule: Rule = |t, point, axis| match axis {
        3 => t.step(point, &DIRECTIONS),
        axis => t.step(point, &without(&DIRECTIONS, axis)),
    };
    for axis in 0..3 {
        holds(axis, |t, axis, x, out| t.slice_step(&DIRECTIONS, axis, x, out), rule);
    }
}

/// On axes of one step, by the first axis.
#[test]
fn linear_uniform() {
    let (nodes, values) = ([0.0, 0.1, 0.2, 5.0, 6.0], [1.0, 2.5, -3.0, 7.0, 0.1, 0.2]);
    let table = Table::new(&[3, 2], &nodes, &values);
    for (a, b) in [(0.0, 5.5), (0.05, 5.1), (0.1, 6.0), (0.2, 5.9)] {
        let mut out = [0.0; 2];
        let shape = table.slice_linear_uniform(0, a, &mut out).unwrap();
        let sliced = shape.table(&nodes[3..], &out).linear_uniform(&[b]).unwrap();
        assert_eq!(sliced.to_bits(), table.linear_uniform(&[a, b]).unwrap().to_bits());
    }
}

/// Two slices on different axes, in either order: the same values.
#[test]
fn two_slices_commute() {
    let values = values();
    let table = Table::new(&COUNTS, &NODES, &values);
    for point in points() {
        let (mut first, mut then, mut other, mut last) = ([0.0; 24], [0.0; 24], [0.0; 24], [0.0; 24]);
        let shape = table.slice_nearest(0, point[0], &mut first).unwrap();
        let shape = shape.table(&nodes_without(0), &first).slice_nearest(1, point[2], &mut then).unwrap();
        let turned = table.slice_nearest(2, point[2], &mut other).unwrap();
        let turned = turned.table(&nodes_without(2), &other).slice_nearest(0, point[0], &mut last).unwrap();
        assert_eq!((shape, then), (turned, last));
    }
}
