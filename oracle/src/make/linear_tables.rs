//! Axes for the two linears.

use super::axes::{adjacent, linspace, summed};
use super::numbers::{two_to, Seed, LEAST};
use super::tables::{self, Axes};

fn ones() -> Vec<f64> {
    vec![0.0, 1.0, 2.0, 3.0]
}

fn around_zero() -> Vec<f64> {
    vec![-1.0, -0.0, 1.0]
}

/// 0, 2, 4 and 6 of the least numbers.
fn subnormal() -> Vec<f64> {
    [0.0, 2.0, 4.0, 6.0].map(|k| k * LEAST).to_vec()
}

/// Uniform, so accepted by both.
fn of_one_axis() -> Vec<Axes> {
    let axes = vec![
        vec![0.0, 1.0],
        vec![-1.0, 1.0],
        around_zero(),
        ones(),
        summed(0.1, 0.1, 5),
        summed(-0.7, 0.3, 6),
        linspace(-1.0, 1.0, 6),
        linspace(1000.0, 1000.5, 5),
        vec![0.0, LEAST],
        subnormal(),
        adjacent(1.0, 4),
        vec![-two_to(1000), 0.0, two_to(1000)],
    ];
    axes.into_iter().map(|nodes| vec![nodes]).collect()
}

/// Uniform, of 2, 3 and 4 axes.
pub fn of_many_axes() -> Vec<Axes> {
    let unit = vec![0.0, 1.0];
    let wide = vec![-1.0, 1.0];
    let tens = vec![10.0, 20.0];
    let tenths = summed(0.1, 0.1, 3);
    vec![
        vec![unit.clone(), unit.clone()],
        vec![ones(), around_zero()],
        vec![tenths.clone(), wide.clone()],
        vec![subnormal(), linspace(-1.0, 1.0, 4)],
        vec![vec![-two_to(1000), 0.0, two_to(1000)], ones()],
        vec![unit.clone(), wide.clone(), around_zero()],
        vec![around_zero(), tens.clone(), tenths.clone()],
        vec![wide.clone(), subnormal(), around_zero()],
        vec![unit.clone(), wide.clone(), tens.clone(), unit.clone()],
        vec![around_zero(), unit, tenths, wide.clone()],
        vec![wide, around_zero(), tens, around_zero()],
    ]
}

pub fn uniform() -> Vec<Axes> {
    [of_one_axis(), of_many_axes()].concat()
}

/// Of 2, 3 and 4 axes, most of them not uniform.
pub fn apart(seed: &mut Seed) -> Vec<Axes> {
    [
        tables::of_two_axes(seed),
        tables::of_three_axes(seed),
        tables::of_four_axes(seed),
    ]
    .concat()
}

/// Uniform, with as many values as a table may have or as many nodes as an axis may have.
pub fn large() -> Vec<Axes> {
    vec![
        vec![linspace(0.0, 1.0, 64)],
        vec![vec![-1.0, 1.0], summed(-3.0, 0.25, 64)],
        vec![summed(0.0, 0.1, 64), linspace(-1.0, 1.0, 64)],
        vec![
            linspace(-1.0, 1.0, 16),
            summed(0.0, 0.1, 16),
            (0..16).map(|k| 2.0 * k as f64 * LEAST).collect(),
        ],
        vec![
            linspace(-4.0, 3.0, 8),
            summed(0.7, 0.7, 8),
            linspace(0.0, 1.0, 8),
            (-4..4).map(|k| k as f64 * two_to(1019)).collect(),
        ],
    ]
}
