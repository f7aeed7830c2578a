//! `validate_uniform_grid` and `validate_uniform_grid_epsilon`.

use super::axes::{self, linspace, summed};
use super::list::List;
use super::numbers::{above, below, not_finite, two_to, Seed, LARGEST, LEAST};

/// By how much each later gap differs from the first, as rounded.
fn deviations(nodes: &[f64]) -> Vec<f64> {
    let step = nodes[1] - nodes[0];
    let gaps = nodes.windows(2).skip(1).map(|pair| pair[1] - pair[0]);
    gaps.map(|gap| (gap - step).abs()).collect()
}

/// The default tolerance met exactly and missed, to either side, at several intervals.
pub fn around_default() -> Vec<Vec<f64>> {
    let mut axes = Vec::new();
    for off in [two_to(-42), two_to(-41)] {
        axes.push(vec![0.0, 1.0, 2.0 + off]);
        axes.push(vec![0.0, 1.0, 2.0 - off]);
        axes.push(vec![0.0, 1.0, 2.0, 3.0 + off]);
        axes.push(vec![-2.0, -1.0, 0.0, 1.0, 2.0 + off]);
    }
    let off = two_to(-41);
    axes.push(vec![0.0, 1.0, 2.0 + off, 3.0 + off, 4.0 + 3.0 * off]);
    axes
}

/// Steps whose default tolerance underflows, to zero or to 2^-1074 and its double.
pub fn small_steps() -> Vec<Vec<f64>> {
    let mut axes = vec![
        vec![0.0, LEAST, 2.0 * LEAST],
        vec![0.0, LEAST, 3.0 * LEAST],
        vec![0.0, 2.0 * LEAST, 3.0 * LEAST],
    ];
    for step in [two_to(-1033), two_to(-1032), 3.0 * two_to(-1033)] {
        for k in 0..4 {
            axes.push(vec![0.0, step, 2.0 * step + k as f64 * LEAST]);
        }
    }
    axes
}

fn long() -> Vec<Vec<f64>> {
    let mut bent = summed(0.0, 1.0, 64);
    bent[63] += two_to(-40);
    let mut bent_early = summed(0.0, 1.0, 64);
    bent_early[2] += two_to(-41);
    vec![
        summed(0.0, 0.1, 64),
        summed(1000.0, 0.1, 64),
        summed(8.0, 1.0 / 3.0, 17),
        linspace(-1.0, 1.0, 63),
        linspace(0.0, 1.0, 64),
        linspace(1.0e6, 1.0e6 + 7.0, 64),
        bent,
        bent_early,
        vec![-LARGEST, 0.0, LARGEST],
        vec![-LARGEST, -1.0, LARGEST / 2.0],
        vec![0.0, two_to(-1000), two_to(1000)],
    ]
}

/// At a deviation and just beside it, so that the first interval past it is named.
fn lent_tolerances(list: &mut List, nodes: &[f64], seed: &mut Seed) {
    let deviations = deviations(nodes);
    let largest = deviations.iter().copied().fold(0.0, f64::max);
    let drawn = deviations.get(seed.under(deviations.len().max(1)));
    for bound in [largest, drawn.copied().unwrap_or(1.0)] {
        list.uniform(bound);
        list.uniform(above(bound));
        list.uniform_epsilon(Some(bound));
        if bound > 0.0 {
            list.uniform(below(bound));
            list.uniform_epsilon(Some(below(bound)));
        }
    }
    list.uniform(0.0);
    list.uniform(-0.0);
    list.uniform_epsilon(Some(-0.0));
}

fn bad_tolerances(list: &mut List) {
    for bad in not_finite().into_iter().chain([-LEAST, -1.0, -LARGEST]) {
        list.uniform(bad);
        list.uniform_epsilon(Some(bad));
    }
}

pub fn add(list: &mut List, seed: &mut Seed) {
    for nodes in axes::named() {
        list.axis(&nodes);
        list.uniform_epsilon(None);
        list.uniform(0.0);
        list.uniform(LARGEST);
    }
    let axes = [around_default(), small_steps(), long()].concat();
    for (place, nodes) in axes.iter().enumerate() {
        list.axis(nodes);
        list.uniform_epsilon(None);
        lent_tolerances(list, nodes, seed);
        if place % 8 == 0 {
            bad_tolerances(list);
        }
    }
}
