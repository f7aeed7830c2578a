//! `locate_lower_index_uniform`.

use super::axes;
use super::list::List;
use super::numbers::{above, below, not_finite, two_to, Seed, LARGEST, LEAST};
use super::readings;

/// First node 0, step 1: t is the reading itself.
fn plain(list: &mut List) {
    let whole = [0.0, 1.0, 2.0, 3.0, 61.0, 62.0, 63.0, 64.0, two_to(32)];
    let large = [two_to(53), two_to(63), two_to(64), two_to(70), LARGEST];
    for n in [2, 3, 4, 64] {
        for reading in whole.into_iter().chain(large) {
            list.uniform_index(0.0, 1.0, n, reading);
            list.uniform_index(0.0, 1.0, n, below(reading));
        }
        for reading in [-0.0, -1.0, above(2.0), -LARGEST] {
            list.uniform_index(0.0, 1.0, n, reading);
        }
    }
}

/// t infinite, by the difference or by the quotient, t = -0.0, and roundings to a whole.
fn edges(list: &mut List) {
    let cases = [
        (0.0, LEAST, 1.0),
        (0.0, LEAST, -1.0),
        (0.0, LEAST, two_to(-1010)),
        (0.0, LEAST, below(two_to(-1010))),
        (-LARGEST, 1.0, LARGEST),
        (LARGEST, 1.0, -LARGEST),
        (-LARGEST, LARGEST, LARGEST),
        (-LARGEST, LARGEST, 0.0),
        (-0.0, 1.0, -0.0),
        (-0.0, 1.0, 0.0),
        (0.0, 2.0, -LEAST),
        (0.0, 2.0, LEAST),
        (0.0, 0.5, -LEAST),
        (-1.0, 1.0, 1.0 - two_to(-53)),
        (-1.0, 1.0, -two_to(-60)),
        (1.0, 1.0, below(1.0)),
        (0.0, 0.1, 0.3),
        (0.0, 0.1, 0.1 + 0.1 + 0.1),
        (0.0, 0.1, 0.7),
        (0.0, 0.2, 0.6),
        (0.1, 0.1, 0.8),
        (1000.0, 1.0 / 9.0, 1001.0),
    ];
    for (grid0, step, reading) in cases {
        for n in [2, 5, 64] {
            list.uniform_index(grid0, step, n, reading);
        }
    }
}

/// Beside `locate_lower_index` on the same axis and readings.
fn both_ways(list: &mut List, seed: &mut Seed) {
    for nodes in [
        vec![0.0, 1.0, 2.0, 3.0],
        axes::summed(0.0, 0.1, 64),
        axes::linspace(1000.0, 1007.0, 64),
    ] {
        list.axis(&nodes);
        for reading in readings::full(&nodes, seed) {
            list.lower(reading);
            let step = nodes[1] - nodes[0];
            list.uniform_index(nodes[0], step, nodes.len() as u8, reading);
        }
    }
}

fn drawn(list: &mut List, seed: &mut Seed) {
    for _ in 0..100 {
        let grid0 = seed.spread(-20, 20);
        let step = seed.spread(-10, 10).abs();
        let n = 2 + seed.under(63) as u8;
        let reading = grid0 + step * (80.0 * seed.part() - 8.0);
        list.uniform_index(grid0, step, n, reading);
    }
    for _ in 0..60 {
        let grid0 = seed.spread(-1022, 1023);
        let step = seed.spread(-1022, 1023).abs();
        let n = 2 + seed.under(63) as u8;
        list.uniform_index(grid0, step, n, seed.spread(-1022, 1023));
    }
}

fn refused(list: &mut List) {
    for n in [0, 1, 65, 66, 128, 255] {
        list.uniform_index(0.0, 1.0, n, 1.0);
        list.uniform_index(f64::NAN, 0.0, n, f64::NAN);
    }
    for bad in not_finite() {
        list.uniform_index(bad, 1.0, 4, 1.0);
        list.uniform_index(bad, 0.0, 4, f64::NAN);
        list.uniform_index(0.0, bad, 4, 1.0);
        list.uniform_index(0.0, bad, 4, f64::NAN);
        list.uniform_index(0.0, 1.0, 4, bad);
    }
    for step in [0.0, -0.0, -1.0, -LEAST, -LARGEST] {
        list.uniform_index(0.0, step, 4, 1.0);
        list.uniform_index(0.0, step, 4, f64::INFINITY);
    }
}

pub fn add(list: &mut List, seed: &mut Seed) {
    plain(list);
    edges(list);
    both_ways(list, seed);
    drawn(list, seed);
    refused(list);
}
