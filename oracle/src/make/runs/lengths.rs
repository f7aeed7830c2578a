//! The stated length of the paper's run, and of images as long as one may be.

use super::cut::paper;
use super::Run;
use crate::image::header::LONGEST;
use crate::image::write::placed;
use crate::make::tables::with_values;

/// The image has 72 bytes, the run 99.
const STATED: [u32; 18] = [
    0,
    1,
    39,
    40,
    41,
    64,
    71,
    73,
    80,
    81,
    99,
    100,
    328,
    36_863,
    36_864,
    36_865,
    65_608,
    u32::MAX,
];

/// An image of so many bytes, most of them in no area, and a record.
fn long(length: usize) -> Run {
    let table = with_values(&[vec![0.0, 2.0]], vec![10.0, 20.0]);
    let values = length as u32 / 8 * 8 - 16;
    let mut run = placed(&table, [40, 0, 0, 0], values, length as u32);
    super::each_kind(&[0.5], &mut run);
    run
}

pub fn runs() -> Vec<Run> {
    let mut runs = Vec::new();
    for stated in STATED {
        let mut run = paper();
        run[4..8].copy_from_slice(&stated.to_le_bytes());
        runs.push(run);
    }
    for length in [79, 80, LONGEST - 1, LONGEST, LONGEST + 1] {
        runs.push(long(length));
    }
    runs
}
