//! Axes that every one-axis primitive refuses.

use super::axes;
use super::list::List;
use super::numbers::{not_finite, two_to, LARGEST};

fn counts() -> Vec<Vec<f64>> {
    let mut nan_first = axes::summed(0.0, 1.0, 65);
    nan_first[0] = f64::NAN;
    vec![
        vec![],
        vec![0.0],
        vec![f64::NAN],
        axes::summed(0.0, 1.0, 65),
        nan_first,
        axes::summed(-5.0, 0.5, 128),
    ]
}

fn bad_nodes() -> Vec<Vec<f64>> {
    let mut axes = Vec::new();
    for bad in not_finite() {
        for place in 0..3 {
            let mut nodes = vec![-2.0, 0.5, 3.0];
            nodes[place] = bad;
            axes.push(nodes);
        }
    }
    for (place, bad) in [(0, f64::NAN), (31, f64::INFINITY), (63, f64::NAN)] {
        let mut nodes = axes::summed(0.0, 1.0, 64);
        nodes[place] = bad;
        axes.push(nodes);
    }
    axes
}

/// The last is a rising half and then a rising half that starts lower.
fn not_rising() -> Vec<Vec<f64>> {
    let mut equal_last = axes::summed(0.0, 1.0, 64);
    equal_last[63] = equal_last[62];
    vec![
        vec![0.0, 0.0],
        vec![0.0, -0.0],
        vec![-0.0, 0.0],
        vec![-1.0, 0.0, -0.0, 1.0],
        vec![3.0, 2.0, 1.0],
        vec![0.0, 1.0, 2.0, 1.5],
        vec![LARGEST, -LARGEST],
        equal_last,
        vec![10.0, 20.0, 30.0, 40.0, 5.0, 15.0, 25.0, 35.0],
    ]
}

/// In the second the gap is a tie that rounds out of range.
fn too_wide() -> Vec<Vec<f64>> {
    vec![
        vec![-LARGEST, LARGEST],
        vec![-two_to(970), LARGEST],
        vec![-LARGEST, two_to(1000), LARGEST],
        vec![-LARGEST, -1.0, LARGEST],
    ]
}

/// Faults of several kinds; the one at the lowest node is told.
fn mixed() -> Vec<Vec<f64>> {
    vec![
        vec![0.0, 0.0, f64::NAN],
        vec![0.0, f64::NAN, 0.0, 0.0],
        vec![-LARGEST, LARGEST, LARGEST],
        vec![-LARGEST, LARGEST, f64::INFINITY],
        vec![1.0, 0.0, -LARGEST, LARGEST],
        vec![0.0, 1.0, f64::NEG_INFINITY, f64::NAN],
    ]
}

fn plain_calls(list: &mut List) {
    list.lower(0.5);
    list.exact(0, 0.5);
    list.locate(0.5);
    list.step(0, 0.5);
    list.step(1, 0.5);
    list.uniform(0.5);
    list.uniform_epsilon(None);
    list.uniform_epsilon(Some(0.5));
}

/// Calls with a fault of their own, which the axis's fault precedes.
fn faulty_calls(list: &mut List) {
    list.lower(f64::NAN);
    list.exact(u64::MAX, f64::NAN);
    list.locate(f64::INFINITY);
    list.step(2, f64::NAN);
    list.uniform(-1.0);
    list.uniform_epsilon(Some(f64::NAN));
}

pub fn add(list: &mut List) {
    let axes = [counts(), bad_nodes(), not_rising(), too_wide(), mixed()].concat();
    for (place, nodes) in axes.iter().enumerate() {
        list.axis(nodes);
        plain_calls(list);
        if place % 3 == 0 {
            faulty_calls(list);
        }
    }
}
