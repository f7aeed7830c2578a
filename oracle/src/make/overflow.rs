//! Blends at the border of the finite numbers. With a fraction from 0 to 1, so for Linear
//! always, a blend of finite values is finite; a uniform fraction may lie beside.

use super::axes::summed;
use super::list::List;
use super::numbers::{above, below, two_to, Seed, LARGEST, LEAST};
use super::tables::{self, Axes};
use super::values::Kind;

/// The last node is as far off as the uniform check allows: its fraction is above 1.
fn bent() -> Vec<f64> {
    vec![0.0, 1.0, 2.0 + two_to(-42)]
}

fn drawn_unit(seed: &mut Seed) -> f64 {
    seed.part() * seed.part()
}

/// Values at the largest number and just below it: the blend stays finite.
fn one_cell(list: &mut List, seed: &mut Seed) {
    let next = below(LARGEST);
    let after = below(next);
    for (a, b) in [
        (LARGEST, LARGEST),
        (-LARGEST, -LARGEST),
        (LARGEST, -LARGEST),
        (next, LARGEST),
        (-after, -next),
    ] {
        list.table(&tables::with_values(&[vec![0.0, 1.0]], vec![a, b]));
        for reading in [LEAST, two_to(-54), above(two_to(-54)), 0.5, below(1.0)] {
            list.linears(&[reading]);
        }
        for _ in 0..6 {
            list.linears(&[drawn_unit(seed)]);
        }
    }
}

/// Opposite values in a cell whose fraction is beside 0 to 1.
fn beside_the_cell(list: &mut List) {
    for values in [
        [0.0, -LARGEST, LARGEST],
        [1.0, LARGEST, -LARGEST],
        [1.0, LARGEST, LARGEST],
        [1.0, -two_to(1000), LARGEST],
        [1.0, -two_to(970), LARGEST],
    ] {
        list.table(&tables::with_values(&[bent()], values.to_vec()));
        let last = bent()[2];
        for reading in [last, below(last), 2.0, above(2.0), below(2.0), 1.5] {
            list.linears(&[reading]);
        }
    }
}

/// The same beside the nodes of rounded sums, where the uniform index is off by one.
fn beside_the_nodes(list: &mut List) {
    let nodes = summed(0.0, 0.1, 64);
    let signs = (0..64).map(|i| if i % 2 == 0 { LARGEST } else { -LARGEST });
    list.table(&tables::with_values(&[nodes.clone()], signs.collect()));
    for &node in nodes[1..63].iter().step_by(2) {
        for reading in [below(node), node, above(node)] {
            list.linear_uniform(&[reading]);
        }
        list.linear(&[below(node)]);
    }
}

/// One column overflows and the other does not: whatever its fraction, it is not finite.
fn two_axes(list: &mut List) {
    let axes: Axes = vec![bent(), vec![0.0, 1.0]];
    let (high, low) = (LARGEST, -LARGEST);
    for values in [
        [1.0, 1.5, low, 2.0, high, 3.0],
        [1.0, 1.5, 2.0, high, 3.0, low],
        [1.0, 1.5, low, high, high, low],
    ] {
        list.table(&tables::with_values(&axes, values.to_vec()));
        for first in [bent()[2], 2.0, 1.25] {
            for second in [0.0, 1.0, 0.5, LEAST, below(1.0)] {
                list.linears(&[first, second]);
            }
        }
    }
}

fn many_axes(list: &mut List, seed: &mut Seed) {
    for count in 2..=4 {
        let axes = vec![vec![0.0, 1.0]; count];
        for kind in [Kind::Huge, Kind::Zeros] {
            list.table(&tables::of_kind(&axes, kind, seed));
            for _ in 0..12 {
                let point: Vec<f64> = (0..count).map(|_| drawn_unit(seed)).collect();
                list.linears(&point);
            }
        }
        let axes = vec![bent(); count];
        list.table(&tables::of_kind(&axes, Kind::Huge, seed));
        for mask in 0..1 << count {
            let pick = |d: usize| [1.5, bent()[2]][mask >> d & 1];
            let point: Vec<f64> = (0..count).map(pick).collect();
            list.linears(&point);
        }
    }
}

pub fn add(list: &mut List, seed: &mut Seed) {
    one_cell(list, seed);
    beside_the_cell(list);
    beside_the_nodes(list);
    two_axes(list);
    many_axes(list, seed);
}
