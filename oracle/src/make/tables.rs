//! Tables that the lookups accept.

use super::axes::{self, adjacent, geometric, linspace, summed};
use super::numbers::{above, two_to, Seed, LARGEST, LEAST};
use super::values::{self, Kind};
use crate::table::Table;

pub type Axes = Vec<Vec<f64>>;

/// A table over these axes, 1 to 4 of them; counts past them are zero.
pub fn with_values(axes: &[Vec<f64>], values: Vec<f64>) -> Table {
    let mut counts = [0; 4];
    for (count, nodes) in counts.iter_mut().zip(axes) {
        *count = nodes.len() as u16;
    }
    Table {
        axes: axes.len() as u8,
        counts,
        nodes: axes.concat(),
        values,
    }
}

pub fn of_kind(axes: &[Vec<f64>], kind: Kind, seed: &mut Seed) -> Table {
    let product = axes.iter().map(Vec::len).product();
    with_values(axes, values::of_kind(kind, product, seed))
}

/// With values of every size, no two alike.
pub fn over(axes: &[Vec<f64>], seed: &mut Seed) -> Table {
    of_kind(axes, Kind::Wide, seed)
}

fn a() -> Vec<f64> {
    vec![0.0, 1.0, 2.0, 4.0]
}

fn around_zero() -> Vec<f64> {
    vec![-3.0, -2.0, -0.0, 0.5, 7.0]
}

/// 0, 2, 4 and 10 of the least numbers.
fn subnormal() -> Vec<f64> {
    [0.0, 2.0, 4.0, 10.0].map(|k| k * LEAST).to_vec()
}

fn huge() -> Vec<f64> {
    vec![-LARGEST, 0.0, LARGEST]
}

/// One has the widest gap that still rounds to a finite number.
pub fn of_one_axis() -> Vec<Axes> {
    let axes = vec![
        a(),
        vec![-1.0, 1.0],
        vec![-3.0, 5.0],
        vec![-1.0, -0.0, 1.0],
        around_zero(),
        vec![-0.0, 1.0],
        vec![-1.0, -0.0],
        vec![0.0, two_to(1000)],
        vec![0.0, LEAST],
        subnormal(),
        huge(),
        vec![above(-two_to(970)), LARGEST],
        vec![-LARGEST, -two_to(1022), LEAST, two_to(1022), LARGEST],
        summed(0.1, 0.1, 5),
        geometric(0.7, 1.5, 5),
        adjacent(1.0, 3),
    ];
    axes.into_iter().map(|nodes| vec![nodes]).collect()
}

pub fn of_two_axes(seed: &mut Seed) -> Vec<Axes> {
    vec![
        vec![vec![0.0, 1.0], vec![0.0, 1.0]],
        vec![a(), vec![-1.0, -0.0, 1.0]],
        vec![vec![-1.0, 1.0], around_zero()],
        vec![subnormal(), huge()],
        vec![geometric(0.125, 2.0, 5), vec![-3.0, 5.0]],
        vec![axes::drawn(seed, 3), axes::scattered(seed, 4)],
    ]
}

pub fn of_three_axes(seed: &mut Seed) -> Vec<Axes> {
    vec![
        vec![vec![0.0, 1.0], vec![-1.0, 1.0], vec![-0.0, 2.0]],
        vec![vec![-3.0, 5.0], vec![-1.0, -0.0, 1.0], a()],
        vec![subnormal(), huge(), vec![0.0, two_to(1000)]],
        vec![
            vec![-1.0, -0.0],
            geometric(0.7, 1.5, 5),
            summed(0.1, 0.1, 3),
        ],
        vec![
            axes::drawn(seed, 3),
            axes::scattered(seed, 2),
            axes::drawn(seed, 4),
        ],
    ]
}

pub fn of_four_axes(seed: &mut Seed) -> Vec<Axes> {
    vec![
        vec![
            vec![0.0, 1.0],
            vec![-1.0, 1.0],
            vec![-0.0, 1.0],
            vec![10.0, 20.0],
        ],
        vec![vec![-3.0, 5.0], vec![-1.0, -0.0, 1.0], a(), around_zero()],
        vec![
            huge(),
            vec![0.0, 2.0 * LEAST],
            subnormal(),
            vec![two_to(1000), two_to(1001)],
        ],
        vec![
            axes::drawn(seed, 4),
            axes::drawn(seed, 3),
            axes::scattered(seed, 2),
            axes::drawn(seed, 2),
        ],
    ]
}

fn wide() -> Vec<f64> {
    let half = two_to(1023);
    vec![-LARGEST, -half, -1.0, -LEAST, 0.0, 1.0, half, LARGEST]
}

/// As many values as a table may have, or as many nodes as an axis may have.
pub fn large(seed: &mut Seed) -> Vec<Axes> {
    vec![
        vec![geometric(two_to(-31), 2.0, 64)],
        vec![axes::scattered(seed, 64)],
        vec![summed(0.0, 0.1, 64), geometric(0.7, 1.5, 64)],
        vec![
            linspace(-1.0, 1.0, 16),
            geometric(two_to(-9), 2.0, 16),
            (0..16).map(|k| 2.0 * k as f64 * LEAST).collect(),
        ],
        vec![
            linspace(-4.0, 3.0, 8),
            axes::scattered(seed, 8),
            axes::drawn(seed, 8),
            wide(),
        ],
    ]
}
