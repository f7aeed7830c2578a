//! The loading checks of document 01 in its order, after 14 the one of request C-12, and the
//! table of an image that passes them. 15 is left out: the program's own buffers are never
//! too short.

use super::header::{Header, HEADER, LONGEST};
use crate::header::read_numbers;
use crate::refusals::{self, Refusal};
use crate::table::Table;
use crate::table_refusals;

pub fn load(image: &[u8]) -> Result<Table, Refusal> {
    if image.len() < HEADER {
        return Err(header_wrong(0));
    }
    let header = Header::read(image);
    start(&header, image.len())?;
    counts(&header)?;
    rest(&header)?;
    let table = Table {
        axes: header.axes,
        counts: header.counts,
        ..Table::default()
    };
    let table = areas(&header, image, table)?;
    shared(&header, &table.shape(), image.len())?;
    table_refusals::nodes_and_values(&table)?;
    Ok(table)
}

fn header_wrong(place: usize) -> Refusal {
    Refusal {
        number: 13,
        axis: 0,
        place,
    }
}

fn field(good: bool, place: usize) -> Result<(), Refusal> {
    if good {
        Ok(())
    } else {
        Err(header_wrong(place))
    }
}

/// Byte 0; byte 1; bytes 2-3; the length.
fn start(header: &Header, lent: usize) -> Result<(), Refusal> {
    field(header.one == 1, 0)?;
    table_refusals::axes(header.axes)?;
    field(header.zero == 0, 2)?;
    let length = header.length as usize;
    field(length == lent && (HEADER..=LONGEST).contains(&length), 4)
}

/// Axis by axis, 13 for one that is not used; then the product.
fn counts(header: &Header) -> Result<(), Refusal> {
    let used = header.axes as usize;
    for (axis, &count) in header.counts.iter().enumerate() {
        if axis < used {
            refusals::count(count as usize).map_err(|no| no.on_axis(axis))?;
        } else {
            field(count == 0, 8 + 2 * axis)?;
        }
    }
    let shape: Vec<usize> = header.counts[..used].iter().map(|&n| n as usize).collect();
    table_refusals::product(&shape)
}

/// Unused offsets; bytes 36-39.
fn rest(header: &Header) -> Result<(), Refusal> {
    for axis in header.axes as usize..4 {
        field(header.offsets[axis] == 0, 16 + 4 * axis)?;
    }
    field(header.end == 0, 36)
}

/// The numbers of an area, of an axis or, under the number of axes, of the values.
fn area(image: &[u8], axis: usize, offset: u32, count: usize) -> Result<Vec<f64>, Refusal> {
    let from = offset as usize;
    if from < HEADER || from % 8 != 0 || from + 8 * count > image.len() {
        return Err(Refusal {
            number: 14,
            axis: axis as u8,
            place: 0,
        });
    }
    let numbers = read_numbers(count, count, &image[from..]);
    Ok(numbers.expect("an area inside the image").0)
}

fn areas(header: &Header, image: &[u8], mut table: Table) -> Result<Table, Refusal> {
    let shape = table.shape();
    for (axis, &count) in shape.iter().enumerate() {
        let nodes = area(image, axis, header.offsets[axis], count)?;
        table.nodes.extend(nodes);
    }
    let size = shape.iter().product();
    table.values = area(image, shape.len(), header.values, size)?;
    Ok(table)
}

/// Request C-12: no byte lies in two areas, each of which is inside the image. Every byte is
/// marked with the areas that it lies in, the values counted last, and the lowest pair told.
fn shared(header: &Header, shape: &[usize], length: usize) -> Result<(), Refusal> {
    let offsets = header.offsets[..shape.len()].iter().chain([&header.values]);
    let counts = shape.iter().copied().chain([shape.iter().product()]);
    let mut marks = vec![0u8; length];
    for (number, (&from, count)) in offsets.zip(counts).enumerate() {
        for mark in &mut marks[from as usize..][..8 * count] {
            *mark |= 1 << number;
        }
    }
    let pair = |mark: u8| (mark.trailing_zeros(), (mark & (mark - 1)).trailing_zeros());
    let several = marks.into_iter().filter(|mark| mark.count_ones() > 1);
    match several.map(pair).min() {
        None => Ok(()),
        Some((one, other)) => Err(Refusal {
            number: 18,
            axis: one as u8,
            place: other as usize,
        }),
    }
}
