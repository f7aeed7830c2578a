//! The fixed whole runs, each an image and records together: those that `crates/test_whole` runs, and the long one of
//! `crates/lookup`.

mod answered;
mod contents;
mod cut;
mod damaged;
mod headers;
mod large;
mod layouts;
mod lengths;
mod long;
mod overlaps;
mod records;

pub use long::long;

use super::images::put_record;
use super::numbers::Seed;
use crate::image::write::write;
use crate::table::Table;

type Run = Vec<u8>;

/// No run has more bytes than this.
const LONGEST: usize = 40_000;

/// As the writer places the table, then records.
fn run(table: &Table, records: &[(u8, &[f64])]) -> Run {
    let mut run = write(table);
    for (kind, readings) in records {
        put_record(*kind, readings, &mut run);
    }
    run
}

/// A record of each kind, 0 to 5, at one point.
fn each_kind(point: &[f64], run: &mut Run) {
    for kind in 0..6 {
        put_record(kind, point, run);
    }
}

pub fn all() -> Vec<Run> {
    let mut seed = Seed::new();
    let runs = [
        cut::runs(),
        headers::runs(),
        lengths::runs(),
        contents::runs(),
        layouts::runs(&mut seed),
        records::runs(),
        answered::runs(&mut seed),
        large::runs(&mut seed),
        overlaps::runs(),
    ]
    .concat();
    assert!(runs.iter().all(|run| run.len() <= LONGEST));
    runs
}
