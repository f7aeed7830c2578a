//! A table as an image.

use super::header::{Header, HEADER};
use crate::header::write_numbers;
use crate::table::Table;

/// Document 01: the axes from byte 40 without gaps, then the values.
pub fn write(table: &Table) -> Vec<u8> {
    let mut offsets = [0; 4];
    let mut at = HEADER as u32;
    for (offset, nodes) in offsets.iter_mut().zip(table.grid()) {
        *offset = at;
        at += 8 * nodes.len() as u32;
    }
    let length = at + 8 * table.values.len() as u32;
    placed(table, offsets, at, length)
}

/// The areas wherever they are put inside the image; where two overlap, the later one in
/// the header stays. Bytes in no area are 255.
pub fn placed(table: &Table, offsets: [u32; 4], values: u32, length: u32) -> Vec<u8> {
    let header = Header {
        one: 1,
        axes: table.axes,
        zero: 0,
        length,
        counts: table.counts,
        offsets,
        values,
        end: 0,
    };
    let mut image = header.bytes();
    image.resize(length as usize, 255);
    for (offset, nodes) in offsets.into_iter().zip(table.grid()) {
        put(&mut image, offset, nodes);
    }
    put(&mut image, values, &table.values);
    image
}

fn put(image: &mut [u8], offset: u32, numbers: &[f64]) {
    let mut bytes = Vec::new();
    write_numbers(numbers, &mut bytes);
    image[offset as usize..][..bytes.len()].copy_from_slice(&bytes);
}
