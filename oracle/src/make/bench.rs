//! The bench cases of document 01 that concern the axis primitives.

use super::axes;
use super::list::List;
use super::numbers::{two_to, LARGEST};

/// P1, P2, P7, and P5's reading.
fn on_a(list: &mut List) {
    list.axis(&[0.0, 1.0, 2.0, 4.0]);
    for reading in [1.0, 4.0, -1.0, 9.0] {
        list.lower(reading);
    }
    for reading in [1.0, 3.0] {
        list.locate(reading);
    }
    for reading in [1.0, 3.0, 4.0] {
        list.step(0, reading);
    }
    for reading in [0.0, 1.0, 3.0] {
        list.step(1, reading);
    }
    list.lower(3.0);
}

/// P3, P4, and P6's reading.
fn fractions(list: &mut List) {
    list.axis(&[-1.0, 1.0]);
    list.locate(1.0 - two_to(-53));
    list.lower(-two_to(-60));
    list.locate(-two_to(-60));
    list.axis(&[0.0, two_to(1000)]);
    list.locate(two_to(-1074));
}

/// P8 and P10.
fn uniform(list: &mut List) {
    for reading in [1.0, 9.0, two_to(70)] {
        list.uniform_index(0.0, 1.0, 4, reading);
    }
    for k in [-42, -41] {
        list.axis(&[0.0, 1.0, 2.0 + two_to(k)]);
        list.uniform_epsilon(None);
    }
}

/// P11 and the unmarked cases.
fn refused(list: &mut List) {
    for nodes in [
        vec![0.0, 0.0],
        vec![-LARGEST, LARGEST],
        vec![5.0],
        axes::summed(0.0, 1.0, 65),
    ] {
        list.axis(&nodes);
        list.lower(0.0);
        list.locate(0.0);
        list.uniform_epsilon(None);
    }
}

pub fn add(list: &mut List) {
    on_a(list);
    fractions(list);
    uniform(list);
    refused(list);
}
