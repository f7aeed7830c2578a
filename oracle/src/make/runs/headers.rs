//! Every fault of a header and of the areas alone, then one fault for each of the loading
//! checks, two at a time, so that their order shows.

use super::damaged::{in_header, in_numbers, sound, with, Fault, AXES, END, VALUES};
use super::Run;
use crate::make::numbers::LARGEST;

/// In the order of the checks.
fn one_of_each() -> Vec<Fault> {
    vec![
        in_header(|h| h.one = 0),
        in_header(|h| h.axes = 5),
        in_header(|h| h.zero = 1),
        in_header(|h| h.length += 1),
        in_header(|h| h.counts[1] = 65),
        in_header(|h| h.counts[3] = 2),
        in_header(|h| h.counts[..3].copy_from_slice(&[64, 64, 2])),
        in_header(|h| h.offsets[3] = 40),
        in_header(|h| h.end = 1),
        in_header(|h| h.offsets[1] = 32),
        in_header(|h| h.values = END as u32),
        in_header(|h| h.offsets[2] = AXES[1] as u32 + 8),
        in_numbers(&[(AXES[0], f64::NAN)]),
        in_numbers(&[(AXES[1] + 8, -1.0)]),
        in_numbers(&[(AXES[2], -LARGEST), (AXES[2] + 8, LARGEST)]),
        in_numbers(&[(VALUES + 24, f64::INFINITY)]),
    ]
}

fn pairs() -> Vec<Run> {
    let faults = one_of_each();
    let mut runs = Vec::new();
    for (place, first) in faults.iter().enumerate() {
        for second in &faults[place + 1..] {
            runs.push(with(&[first, second]));
        }
    }
    runs
}

fn small_fields() -> Vec<Fault> {
    vec![
        in_header(|h| h.one = 0),
        in_header(|h| h.one = 2),
        in_header(|h| h.one = 255),
        in_header(|h| h.axes = 0),
        in_header(|h| h.axes = 1),
        in_header(|h| h.axes = 2),
        in_header(|h| h.axes = 4),
        in_header(|h| h.axes = 5),
        in_header(|h| h.axes = 255),
        in_header(|h| h.zero = 1),
        in_header(|h| h.zero = 256),
        in_header(|h| h.end = 1),
        in_header(|h| h.end = 1 << 8),
        in_header(|h| h.end = 1 << 16),
        in_header(|h| h.end = 1 << 24),
    ]
}

fn counts() -> Vec<Fault> {
    vec![
        in_header(|h| h.counts[0] = 0),
        in_header(|h| h.counts[0] = 1),
        in_header(|h| h.counts[0] = 65),
        in_header(|h| h.counts[0] = 256),
        in_header(|h| h.counts[1] = 1),
        in_header(|h| h.counts[1] = u16::MAX),
        in_header(|h| h.counts[2] = 0),
        in_header(|h| h.counts[2] = 65),
        in_header(|h| h.counts = [65, 1, 2, 0]),
        in_header(|h| h.counts = [2, 65, 1, 7]),
        in_header(|h| h.counts[3] = 1),
        in_header(|h| h.counts[3] = 256),
        in_header(|h| h.counts = [64, 64, 2, 0]),
        in_header(|h| h.counts = [16, 16, 17, 0]),
        in_header(|h| h.counts = [64, 64, 64, 0]),
        in_header(|h| h.counts = [64, 32, 2, 0]),
        in_header(|h| h.counts = [3, 2, 2, 0]),
    ]
}

/// The sound areas are at 40, 56 and 80, the values at 96; the image ends at 192.
fn areas() -> Vec<Fault> {
    vec![
        in_header(|h| h.offsets[3] = 1),
        in_header(|h| h.offsets[3] = 1 << 24),
        in_header(|h| h.offsets[0] = 0),
        in_header(|h| h.offsets[0] = 32),
        in_header(|h| h.offsets[0] = 41),
        in_header(|h| h.offsets[0] = 44),
        in_header(|h| h.offsets[1] = 39),
        in_header(|h| h.offsets[1] = END as u32 - 16),
        in_header(|h| h.offsets[2] = END as u32),
        in_header(|h| h.offsets[2] = END as u32 - 8),
        in_header(|h| h.offsets[2] = END as u32 - 16),
        in_header(|h| h.offsets[2] = 0xffff_fff8),
        in_header(|h| h.offsets[2] = u32::MAX),
        in_header(|h| h.values = 0),
        in_header(|h| h.values = 100),
        in_header(|h| h.values = 104),
        in_header(|h| h.values = 40),
        in_header(|h| h.values = 0xffff_fff8),
    ]
}

pub fn runs() -> Vec<Run> {
    let mut runs = vec![sound()];
    for faults in [small_fields(), counts(), areas(), one_of_each()] {
        runs.extend(faults.iter().map(|fault| with(&[fault])));
    }
    runs.extend(pairs());
    runs.extend(unused());
    runs
}

/// Each unused count and offset of a table of one axis, the lowest first told.
fn unused() -> Vec<Run> {
    let mut runs = Vec::new();
    for at in [10, 12, 14, 20, 24, 28] {
        let mut run = super::cut::paper();
        run[at] = 40;
        runs.push(run.clone());
        run[14] = 40;
        run[28] = 40;
        runs.push(run);
    }
    runs
}
