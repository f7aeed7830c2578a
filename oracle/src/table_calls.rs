//! The records of tables, of their lookups and of their slices.

use crate::calls::{Call, Read};
use crate::header::{read_numbers, Header};
use crate::rules::Rule;
use crate::table::Table;

const MOST_NODES: usize = 512;
pub const MOST_VALUES: usize = 4160;
const MOST_READINGS: usize = 8;

/// The op of the first rule's lookup, and of its slice.
pub const LOOKUP: u8 = 9;
pub const SLICE: u8 = 13;

/// A slice: one axis is removed at a reading, into an output with so much room.
#[derive(Clone)]
pub struct Slice {
    pub rule: Rule,
    pub axis: u32,
    pub reading: f64,
    pub room: u32,
}

/// Parts of so many bits, the first one lowest.
fn joined<const N: usize>(parts: [u64; N], bits: u32) -> u64 {
    parts
        .into_iter()
        .rev()
        .fold(0, |all, part| all << bits | part)
}

fn part(all: u64, bits: u32, place: usize) -> u64 {
    all >> (bits * place as u32) & ((1 << bits) - 1)
}

pub fn table_header(table: &Table) -> Header {
    let lengths = [table.nodes.len() as u64, table.values.len() as u64];
    Header {
        a: table.axes,
        second: joined(table.counts.map(u64::from), 16),
        third: joined(lengths, 32),
        ..Header::default()
    }
}

/// The directions of Step, in `b` and second; zeros for the others.
fn rule_header(rule: &Rule) -> Header {
    let directions = rule.directions();
    let mut bytes = [0; 8];
    bytes[..directions.len()].copy_from_slice(directions);
    Header {
        b: directions.len() as u8,
        second: u64::from_le_bytes(bytes),
        ..Header::default()
    }
}

pub fn lookup_header(rule: &Rule, readings: &[f64]) -> Header {
    Header {
        a: readings.len() as u8,
        ..rule_header(rule)
    }
}

pub fn slice_header(slice: &Slice) -> Header {
    Header {
        reading: slice.reading.to_bits(),
        third: joined([slice.room, slice.axis].map(u64::from), 32),
        ..rule_header(&slice.rule)
    }
}

pub fn read_table<'a>(header: &Header, rest: &'a [u8]) -> Read<'a> {
    let lengths = [0, 1].map(|place| part(header.third, 32, place) as usize);
    let (nodes, rest) = read_numbers(lengths[0], MOST_NODES, rest)?;
    let (values, rest) = read_numbers(lengths[1], MOST_VALUES, rest)?;
    let table = Table {
        axes: header.a,
        counts: [0, 1, 2, 3].map(|place| part(header.second, 16, place) as u16),
        nodes,
        values,
    };
    Ok((Call::Table(table), rest))
}

fn read_rule(number: u8, header: &Header) -> Result<Rule, String> {
    let bytes = header.second.to_le_bytes();
    let Some(directions) = bytes.get(..header.b as usize) else {
        return Err("more directions than a record may have".into());
    };
    Ok(match number {
        0 => Rule::Nearest,
        1 => Rule::Step(directions.to_vec()),
        2 => Rule::Linear,
        _ => Rule::LinearUniform,
    })
}

pub fn read_lookup<'a>(header: &Header, rest: &'a [u8]) -> Read<'a> {
    let rule = read_rule(header.op - LOOKUP, header)?;
    let (readings, rest) = read_numbers(header.a as usize, MOST_READINGS, rest)?;
    Ok((Call::Lookup { rule, readings }, rest))
}

pub fn read_slice<'a>(header: &Header, rest: &'a [u8]) -> Read<'a> {
    let slice = Slice {
        rule: read_rule(header.op - SLICE, header)?,
        axis: part(header.third, 32, 1) as u32,
        reading: f64::from_bits(header.reading),
        room: part(header.third, 32, 0) as u32,
    };
    if slice.room as usize > MOST_VALUES {
        return Err("more room than a record may have".into());
    }
    Ok((Call::Slice(slice), rest))
}
