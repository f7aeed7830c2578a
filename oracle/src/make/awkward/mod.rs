//! Whole runs of the program, drawn from a number, for comparing at scale: awkward tables,
//! each with many records, and images that are damaged.

mod axes;
pub mod damage;
pub mod readings;
pub mod tables;

use super::images;
use super::numbers::Seed;
use crate::table::Table;

/// Runs until so many records of undamaged images were made. One run in twelve stands
/// beside these: its image is damaged.
pub struct Runs {
    seed: Seed,
    left: usize,
}

impl Runs {
    pub fn new(number: u64, records: usize) -> Runs {
        Runs {
            seed: Seed::of(number),
            left: records,
        }
    }
}

impl Iterator for Runs {
    type Item = Vec<u8>;

    fn next(&mut self) -> Option<Vec<u8>> {
        if self.left == 0 {
            return None;
        }
        let seed = &mut self.seed;
        if seed.under(12) == 0 {
            let count = seed.under(40);
            return Some(run(count, true, seed));
        }
        let count = count(seed).min(self.left);
        self.left -= count;
        Some(run(count, false, seed))
    }
}

fn count(seed: &mut Seed) -> usize {
    match seed.under(8) {
        0 => 1 + seed.under(50),
        _ => 500 + seed.under(1500),
    }
}

fn run(records: usize, damaged: bool, seed: &mut Seed) -> Vec<u8> {
    let (table, mut run) = tables::with_image(seed);
    if damaged && seed.under(8) == 0 {
        run.truncate(seed.under(run.len()));
        return run;
    }
    if damaged {
        damage::drawn(&mut run, seed);
    }
    for _ in 0..records {
        let kind = match seed.under(40) {
            0 => 5 + seed.under(251) as u8,
            _ => seed.under(5) as u8,
        };
        images::put_record(kind, &readings::point(&table.grid(), seed), &mut run);
    }
    if seed.under(10) == 0 {
        run.extend(cut_record(&table, seed));
    }
    run
}

/// The front of a record, a byte or more.
fn cut_record(table: &Table, seed: &mut Seed) -> Vec<u8> {
    let mut record = Vec::new();
    let kind = seed.under(6) as u8;
    images::put_record(kind, &readings::point(&table.grid(), seed), &mut record);
    record.truncate(1 + seed.under(record.len() - 1));
    record
}
