//! Lookups with a fault of their own, on accepted tables.

use super::list::List;
use super::numbers::{above, below, not_finite, Seed, LARGEST};
use super::{directions, points, tables};

/// A table that stands in the list, and a point within it.
struct Open<'a> {
    axes: &'a [Vec<f64>],
    point: Vec<f64>,
    directions: Vec<u8>,
}

impl Open<'_> {
    fn ends(&self, d: usize) -> (f64, f64) {
        let nodes = &self.axes[d];
        (nodes[0], nodes[nodes.len() - 1])
    }

    /// The point with other readings on some axes.
    fn with(&self, changes: &[(usize, f64)]) -> Vec<f64> {
        let mut point = self.point.clone();
        for &(d, reading) in changes {
            point[d] = reading;
        }
        point
    }

    fn read(&self, list: &mut List, changes: &[(usize, f64)]) {
        list.ask_both(&self.directions, &self.with(changes));
    }
}

/// One number beyond an end, and far beyond.
fn outside(list: &mut List, open: &Open) {
    for d in 0..open.axes.len() {
        let (first, last) = open.ends(d);
        for reading in [below(first), above(last), -LARGEST, LARGEST] {
            open.read(list, &[(d, reading)]);
        }
    }
}

fn nan_or_infinite(list: &mut List, open: &Open) {
    for d in 0..open.axes.len() {
        for reading in not_finite() {
            open.read(list, &[(d, reading)]);
        }
    }
}

/// Two axes at fault: 10 goes before 11, then the lower axis goes first.
fn two_axes(list: &mut List, open: &Open) {
    for d in 1..open.axes.len() {
        for c in 0..d {
            let beyond = [(c, below(open.ends(c).0)), (d, above(open.ends(d).1))];
            open.read(list, &beyond);
            open.read(list, &[(c, f64::NAN), beyond[1]]);
            open.read(list, &[beyond[0], (d, f64::NEG_INFINITY)]);
            open.read(list, &[(c, f64::INFINITY), (d, f64::NAN)]);
        }
    }
}

/// Too few and too many readings; every other time none of them is a number.
fn reading_counts(list: &mut List, open: &Open) {
    for count in (0..=8).filter(|&count| count != open.axes.len()) {
        let mut readings = open.point.repeat(8);
        if count % 2 == 1 {
            readings.fill(f64::NAN);
        }
        list.ask_both(&open.directions, &readings[..count]);
    }
}

/// Too few and too many directions, also beside a wrong number of readings, beside bad
/// directions and beside readings that are refused.
fn direction_counts(list: &mut List, open: &Open) {
    let axes = open.axes.len();
    for count in (0..=8).filter(|&count| count != axes) {
        list.stepped(&[0, 1, 1, 0, 1, 0, 0, 1][..count], &open.point);
    }
    list.stepped(&[], &[]);
    list.stepped(&[2; 8][..axes + 1], &open.point);
    list.stepped(&[2; 8][..axes - 1], &open.point[..axes - 1]);
    list.stepped(&open.directions[..axes - 1], &open.with(&[(0, f64::NAN)]));
}

/// 9 goes before 10 and 11; among directions the lower axis goes first.
fn bad_directions(list: &mut List, open: &Open) {
    for d in 0..open.axes.len() {
        for bad in [2, 3, 128, 255] {
            let mut directions = open.directions.clone();
            directions[d] = bad;
            list.stepped(&directions, &open.point);
        }
        let mut directions = open.directions.clone();
        directions[d] = 2;
        let beyond = below(open.ends(0).0);
        list.stepped(&directions, &open.with(&[(0, f64::NAN)]));
        list.stepped(&directions, &open.with(&[(0, beyond)]));
        directions[open.axes.len() - 1] = 255;
        list.stepped(&directions, &open.with(&[(d, f64::INFINITY)]));
    }
}

fn readings<'a>(list: &mut List, axes: &'a [Vec<f64>], seed: &mut Seed) -> Open<'a> {
    list.table(&tables::over(axes, seed));
    let open = Open {
        axes,
        point: points::drawn(axes, seed),
        directions: directions::drawn(axes.len(), seed),
    };
    outside(list, &open);
    nan_or_infinite(list, &open);
    two_axes(list, &open);
    reading_counts(list, &open);
    open
}

fn all(list: &mut List, axes: &[Vec<f64>], seed: &mut Seed) {
    let open = readings(list, axes, seed);
    direction_counts(list, &open);
    bad_directions(list, &open);
}

/// Zeros at an end that is the other zero are within.
fn zero_ends(list: &mut List, seed: &mut Seed) {
    for nodes in [[0.0, 1.0], [-0.0, 1.0], [-1.0, 0.0], [-1.0, -0.0]] {
        list.table(&tables::over(&[vec![1.0, 2.0], nodes.to_vec()], seed));
        for zero in [0.0, -0.0] {
            list.nearest(&[1.25, zero]);
            list.stepped(&[0, 0], &[1.25, zero]);
            list.stepped(&[0, 1], &[1.25, zero]);
        }
    }
}

pub fn add(list: &mut List, seed: &mut Seed) {
    let axes = [
        vec![0.0, 1.0, 2.0, 4.0],
        vec![-1.0, -0.0, 1.0],
        vec![-3.0, 5.0],
        vec![1.0e-300, 0.7, 1.0e300],
    ];
    for count in 1..=axes.len() {
        all(list, &axes[..count], seed);
    }
    zero_ends(list, seed);
}

/// The faults of readings alone, on axes that LinearUniform accepts and on one more set
/// with an axis that it refuses, which then goes before any reading.
pub fn add_uniform(list: &mut List, seed: &mut Seed) {
    let axes = [
        vec![0.0, 1.0, 2.0, 3.0],
        vec![-1.0, -0.0, 1.0],
        vec![-3.0, 5.0],
        vec![0.25, 0.5, 0.75],
    ];
    for count in 1..=axes.len() {
        readings(list, &axes[..count], seed);
    }
    readings(list, &[axes[1].clone(), vec![0.0, 1.0, 3.0]], seed);
    for nodes in [[0.0, 1.0], [-0.0, 1.0], [-1.0, 0.0], [-1.0, -0.0]] {
        list.table(&tables::over(&[vec![1.0, 2.0], nodes.to_vec()], seed));
        for zero in [0.0, -0.0] {
            list.ask_both(&[0, 0], &[1.25, zero]);
        }
    }
}
