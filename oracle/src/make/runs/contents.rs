//! Nodes and values that are refused, each followed by records that are not answered.

use super::cut::paper;
use super::damaged::{in_numbers, with, AXES, VALUES};
use super::{run, Run};
use crate::make::numbers::{above, not_finite, two_to, LARGEST};
use crate::make::tables::with_values;

/// Every node and some of the values, for each number that is not finite.
fn wild() -> Vec<Run> {
    let mut runs = Vec::new();
    for bad in not_finite() {
        for at in (AXES[0]..VALUES).step_by(8) {
            runs.push(with(&[&in_numbers(&[(at, bad)])]));
        }
        for at in [VALUES, VALUES + 40, VALUES + 88] {
            runs.push(with(&[&in_numbers(&[(at, bad)])]));
        }
    }
    runs
}

/// Equal and falling neighbours, on each axis; zeros of both signs are equal.
fn falling() -> Vec<Run> {
    [
        (AXES[0], 1.0),
        (AXES[0], above(1.0)),
        (AXES[0] + 8, -0.0),
        (AXES[1], 0.0),
        (AXES[1] + 8, 4.0),
        (AXES[1] + 16, -2.0),
        (AXES[2], 20.0),
        (AXES[2] + 8, -20.0),
    ]
    .map(|number| with(&[&in_numbers(&[number])]))
    .to_vec()
}

/// Neighbours too far apart, and as far apart as may be.
fn far() -> Vec<Run> {
    let pairs = [
        (-LARGEST, LARGEST),
        (-two_to(970), LARGEST),
        (above(-two_to(970)), LARGEST),
        (-two_to(1023), two_to(1023)),
        (-two_to(1022), two_to(1022)),
    ];
    let mut runs = Vec::new();
    for (low, high) in pairs {
        for at in [AXES[0], AXES[2]] {
            runs.push(with(&[&in_numbers(&[(at, low), (at + 8, high)])]));
        }
    }
    runs
}

/// Several faults at once: the lowest axis is told, then the lowest node; at one node 4,
/// then 5, then 6.
fn several() -> Vec<Run> {
    let nan = f64::NAN;
    [
        vec![(AXES[0] + 8, 0.0), (AXES[1], nan)],
        vec![(AXES[0] + 8, nan), (AXES[1], nan)],
        vec![(AXES[1] + 8, -1.0), (AXES[1] + 16, nan)],
        vec![(AXES[1] + 8, nan), (AXES[1] + 16, -1.0)],
        vec![(AXES[1], -LARGEST), (AXES[1] + 8, LARGEST)],
        vec![(AXES[2] + 8, f64::NEG_INFINITY), (VALUES, nan)],
        vec![(VALUES + 8, nan), (VALUES + 16, f64::INFINITY)],
    ]
    .iter()
    .map(|numbers| with(&[&in_numbers(numbers)]))
    .collect()
}

/// Half of each of two axes.
fn mixed() -> Run {
    let nodes = vec![10.0, 20.0, 30.0, 40.0, 5.0, 15.0, 25.0, 35.0];
    let values = (0..8).map(|place| place as f64).collect();
    run(&with_values(&[nodes], values), &[(0, &[12.0])])
}

pub fn runs() -> Vec<Run> {
    let mut runs = [wild(), falling(), far(), several()].concat();
    runs.push(mixed());
    let mut last = paper();
    last[64..72].copy_from_slice(&f64::NAN.to_bits().to_le_bytes());
    runs.push(last);
    runs
}
