//! The list: records with a header of 32 bytes, little-endian; see README.md.

use crate::header::{read_numbers, write_numbers, Header, HEADER};
use crate::rules::Rule;
use crate::table::Table;
use crate::table_calls::{self, Slice, LOOKUP, SLICE};

pub const MOST_NODES: usize = 128;

#[derive(Clone)]
pub enum Call {
    Axis(Vec<f64>),
    LocateLowerIndex {
        reading: f64,
    },
    ExactIndex {
        lower: u64,
        reading: f64,
    },
    LocateAxis {
        reading: f64,
    },
    LocateStepIndex {
        direction: u8,
        reading: f64,
    },
    LocateLowerIndexUniform {
        grid0: f64,
        step: f64,
        n: u8,
        reading: f64,
    },
    ValidateUniformGrid {
        tolerance: f64,
    },
    ValidateUniformGridEpsilon {
        tolerance: Option<f64>,
    },
    Table(Table),
    Lookup {
        rule: Rule,
        readings: Vec<f64>,
    },
    Slice(Slice),
}

/// By op.
pub const NAMES: [&str; 17] = [
    "axis",
    "locate_lower_index",
    "exact_index",
    "locate_axis",
    "locate_step_index",
    "locate_lower_index_uniform",
    "validate_uniform_grid",
    "validate_uniform_grid_epsilon",
    "table",
    "Nearest",
    "Step",
    "Linear",
    "LinearUniform",
    "slice of Nearest",
    "slice of Step",
    "slice of Linear",
    "slice of LinearUniform",
];

impl Call {
    pub fn op(&self) -> u8 {
        match self {
            Call::Axis(_) => 0,
            Call::LocateLowerIndex { .. } => 1,
            Call::ExactIndex { .. } => 2,
            Call::LocateAxis { .. } => 3,
            Call::LocateStepIndex { .. } => 4,
            Call::LocateLowerIndexUniform { .. } => 5,
            Call::ValidateUniformGrid { .. } => 6,
            Call::ValidateUniformGridEpsilon { .. } => 7,
            Call::Table(_) => 8,
            Call::Lookup { rule, .. } => LOOKUP + rule.number(),
            Call::Slice(slice) => SLICE + slice.rule.number(),
        }
    }

    /// An axis and a table are lent to the calls that follow; they have no answer.
    pub fn has_answer(&self) -> bool {
        !matches!(self, Call::Axis(_) | Call::Table(_))
    }

    pub fn write(&self, out: &mut Vec<u8>) {
        out.extend(self.header().bytes());
        match self {
            Call::Axis(nodes) => write_numbers(nodes, out),
            Call::Table(table) => {
                write_numbers(&table.nodes, out);
                write_numbers(&table.values, out);
            }
            Call::Lookup { readings, .. } => write_numbers(readings, out),
            _ => {}
        }
    }

    fn header(&self) -> Header {
        Header {
            op: self.op(),
            ..self.fields()
        }
    }

    fn fields(&self) -> Header {
        let mut header = Header::default();
        match self {
            Call::Axis(nodes) => header.a = nodes.len() as u8,
            Call::LocateLowerIndex { reading } | Call::LocateAxis { reading } => {
                header.reading = reading.to_bits();
            }
            Call::ExactIndex { lower, reading } => {
                header.reading = reading.to_bits();
                header.second = *lower;
            }
            Call::LocateStepIndex { direction, reading } => {
                header.a = *direction;
                header.reading = reading.to_bits();
            }
            #[rustfmt::skip]
            Call::LocateLowerIndexUniform { grid0, step, n, reading } => {
                header.a = *n;
                header.reading = reading.to_bits();
                header.second = grid0.to_bits();
                header.third = step.to_bits();
            }
            Call::ValidateUniformGrid { tolerance } => header.second = tolerance.to_bits(),
            Call::ValidateUniformGridEpsilon { tolerance } => {
                header.a = tolerance.is_some() as u8;
                header.second = tolerance.unwrap_or(0.0).to_bits();
            }
            Call::Table(table) => return table_calls::table_header(table),
            Call::Lookup { rule, readings } => return table_calls::lookup_header(rule, readings),
            Call::Slice(slice) => return table_calls::slice_header(slice),
        }
        header
    }
}

/// A call, and what lies after it.
pub type Read<'a> = Result<(Call, &'a [u8]), String>;

fn read_axis<'a>(header: &Header, rest: &'a [u8]) -> Read<'a> {
    let (nodes, rest) = read_numbers(header.a as usize, MOST_NODES, rest)?;
    Ok((Call::Axis(nodes), rest))
}

/// The calls that are a header alone.
fn read_primitive(header: &Header) -> Result<Call, String> {
    let reading = f64::from_bits(header.reading);
    let second = f64::from_bits(header.second);
    Ok(match (header.op, header.a) {
        (1, _) => Call::LocateLowerIndex { reading },
        (2, _) => Call::ExactIndex {
            lower: header.second,
            reading,
        },
        (3, _) => Call::LocateAxis { reading },
        (4, direction) => Call::LocateStepIndex { direction, reading },
        (5, n) => Call::LocateLowerIndexUniform {
            grid0: second,
            step: f64::from_bits(header.third),
            n,
            reading,
        },
        (6, _) => Call::ValidateUniformGrid { tolerance: second },
        (7, 0) => Call::ValidateUniformGridEpsilon { tolerance: None },
        (7, 1) => Call::ValidateUniformGridEpsilon {
            tolerance: Some(second),
        },
        (op, a) => return Err(format!("no such call: op {op}, a {a}")),
    })
}

fn read_call(bytes: &[u8]) -> Read<'_> {
    let header = Header::read(bytes)?;
    let rest = &bytes[HEADER..];
    let (call, rest) = match header.op {
        0 => read_axis(&header, rest)?,
        8 => table_calls::read_table(&header, rest)?,
        9..=12 => table_calls::read_lookup(&header, rest)?,
        13..=16 => table_calls::read_slice(&header, rest)?,
        _ => (read_primitive(&header)?, rest),
    };
    if call.header() != header {
        let op = header.op;
        return Err(format!(
            "op {op}: a field that it does not name is not zero"
        ));
    }
    Ok((call, rest))
}

pub fn read_list(mut bytes: &[u8]) -> Result<Vec<Call>, String> {
    let mut calls = Vec::new();
    while !bytes.is_empty() {
        let (call, rest) = read_call(bytes)?;
        calls.push(call);
        bytes = rest;
    }
    Ok(calls)
}
