//! One whole run of the program, document 01, section "The program and one whole run": an
//! image, then records, to a line for each. A value is what the unchanged Rust gives.

use crate::header::read_numbers;
use crate::image::header::{Header, HEADER, LONGEST};
use crate::image::load::load;
use crate::lookups::{self, Data};
use crate::refusals::Refusal;
use crate::rules::Rule;
use crate::table::Table;
use std::fmt::Write;

pub const MOST_RECORDS: usize = 1_000_000;

/// What a record of an unknown kind gets.
pub const UNKNOWN_KIND: Refusal = Refusal {
    number: 9,
    axis: 0,
    place: 0,
};

/// What a short last record gets.
pub const CUT: Refusal = Refusal {
    number: 3,
    axis: 0,
    place: 2,
};

/// By kind.
pub const KINDS: [&str; 5] = [
    "Linear",
    "LinearUniform",
    "Nearest",
    "Step lower",
    "Step upper",
];

/// The bytes that are taken for the image: 40, then up to the stated length where that is
/// 40 to 36,864; and what lies after them.
pub fn image_and_records(input: &[u8]) -> (&[u8], &[u8]) {
    let mut taken = HEADER.min(input.len());
    if taken == HEADER {
        let stated = Header::read(input).length as usize;
        if (HEADER..=LONGEST).contains(&stated) {
            taken = stated.min(input.len());
        }
    }
    input.split_at(taken)
}

/// How many bytes a record has.
pub fn record_size(axes: u8) -> usize {
    1 + 8 * axes as usize
}

fn rule(kind: u8, axes: u8) -> Result<Rule, Refusal> {
    let directions = |byte: u8| vec![byte; axes as usize];
    match kind {
        0 => Ok(Rule::Linear),
        1 => Ok(Rule::LinearUniform),
        2 => Ok(Rule::Nearest),
        3 => Ok(Rule::Step(directions(0))),
        4 => Ok(Rule::Step(directions(1))),
        _ => Err(UNKNOWN_KIND),
    }
}

/// Of a table that was loaded and a record that is not short.
fn answer(table: &Table, data: &Data, record: &[u8]) -> Result<f64, Refusal> {
    let axes = table.axes as usize;
    let (readings, _) = read_numbers(axes, axes, &record[1..]).expect("a whole record");
    let rule = rule(record[0], table.axes)?;
    lookups::looked_up_in(table, data, &rule, &readings)
}

fn put(answer: Result<f64, Refusal>, lines: &mut String) {
    let put = match answer {
        Ok(value) => writeln!(lines, "ok {:016x}", value.to_bits()),
        Err(no) => writeln!(lines, "no {} {} {}", no.number, no.axis, no.place),
    };
    put.expect("a string takes every line");
}

fn answer_records(table: &Table, records: &[u8], lines: &mut String) {
    let data = lookups::data(table);
    let size = record_size(table.axes);
    for record in records.chunks(size).take(MOST_RECORDS) {
        if record.len() < size {
            put(Err(CUT), lines);
        } else {
            put(answer(table, &data, record), lines);
        }
    }
}

/// The lines of a run.
pub fn lines(input: &[u8]) -> String {
    let (image, records) = image_and_records(input);
    let mut lines = String::new();
    match load(image) {
        Ok(table) => answer_records(&table, records, &mut lines),
        Err(no) => put(Err(no), &mut lines),
    }
    lines
}
