//! For measurements: the two programs that ours are timed against, as one writes them in
//! Rust for use, over the unchanged strategies. Input and output are buffered, 64 KiB each;
//! the arrays, the strategies and what the uniform check says are made once for a table; a
//! record or call is read into room on the stack; the digits of a line are put by hand. What
//! allocates for each answer is the strategies' own code.

use crate::header::{read_numbers, Header, HEADER as CALL_HEADER};
use crate::image::header::{Header as ImageHeader, HEADER, LONGEST};
use crate::image::load::load;
use crate::lookups::{data, step, Data};
use crate::program::{record_size, CUT, MOST_RECORDS, UNKNOWN_KIND};
use crate::refusals::{self, Refusal};
use crate::rules::Rule;
use crate::table::Table;
use crate::table_refusals;
use ninterp::error::InterpolateError;
use ninterp::strategy::traits::StrategyND;
use ninterp::strategy::{Linear, LinearUniform, Nearest, Step};
use std::io::{self, BufReader, BufWriter, Read, Write};

const BUFFER: usize = 1 << 16;

/// A table with all that its answers need.
struct Ready {
    data: Data,
    uniform: Result<(), Refusal>,
    lower: Step,
    upper: Step,
    /// By kind.
    rules: [Rule; 5],
    table: Table,
}

impl Ready {
    fn new(table: Table) -> Ready {
        let (zeros, ones) = (vec![0; table.axes as usize], vec![1; table.axes as usize]);
        Ready {
            data: data(&table),
            uniform: table_refusals::uniform_axes(&table),
            lower: step(&zeros),
            upper: step(&ones),
            rules: [
                Rule::Linear,
                Rule::LinearUniform,
                Rule::Nearest,
                Rule::Step(zeros),
                Rule::Step(ones),
            ],
            table,
        }
    }

    fn value(&self, kind: u8, point: &[f64]) -> Result<f64, Refusal> {
        let Ok(value): Result<f64, InterpolateError> = match kind {
            0 => Linear.interpolate(&self.data, point),
            1 => LinearUniform.interpolate(&self.data, point),
            2 => Nearest.interpolate(&self.data, point),
            3 => self.lower.interpolate(&self.data, point),
            _ => self.upper.interpolate(&self.data, point),
        };
        refusals::result(value, 0).map(|()| value)
    }

    /// The table was judged when it was loaded: 8, 9, 10, 11 and 12 are left.
    fn answer(&self, record: &[u8]) -> Result<f64, Refusal> {
        let axes = self.table.axes as usize;
        let room = numbers(&record[1..]);
        let (kind, point) = (record[0], &room[..axes]);
        match kind {
            1 => self.uniform?,
            0..=4 => {}
            _ => return Err(UNKNOWN_KIND),
        }
        table_refusals::readings_of(&self.table, point)?;
        self.value(kind, point)
    }

    /// Judges the whole table again.
    fn judged_answer(&self, kind: u8, point: &[f64]) -> Result<f64, Refusal> {
        table_refusals::lookup(&self.table, &self.rules[kind as usize], point)?;
        self.value(kind, point)
    }
}

/// Up to eight numbers.
fn numbers(bytes: &[u8]) -> [f64; 8] {
    let mut numbers = [0.0; 8];
    for (number, bytes) in numbers.iter_mut().zip(bytes.chunks_exact(8)) {
        *number = f64::from_le_bytes(bytes.try_into().expect("eight bytes"));
    }
    numbers
}

/// Puts the digits of a number below 100,000 and gives the place past them.
fn put_decimal(number: usize, line: &mut [u8], at: usize) -> usize {
    let mut end = at + 1;
    let mut rest = number / 10;
    while rest > 0 {
        end += 1;
        rest /= 10;
    }
    rest = number;
    for digit in line[at..end].iter_mut().rev() {
        *digit = b'0' + (rest % 10) as u8;
        rest /= 10;
    }
    end
}

fn put_refusal(no: Refusal, output: &mut impl Write) -> io::Result<()> {
    let mut line = *b"no                  \n";
    let at = put_decimal(no.number as usize, &mut line, 3);
    let at = put_decimal(no.axis as usize, &mut line, at + 1);
    let at = put_decimal(no.place, &mut line, at + 1);
    line[at] = b'\n';
    output.write_all(&line[..=at])
}

fn put_value(value: f64, output: &mut impl Write) -> io::Result<()> {
    let mut line = *b"ok 0000000000000000\n";
    let mut bits = value.to_bits();
    for digit in line[3..19].iter_mut().rev() {
        *digit = b"0123456789abcdef"[(bits & 15) as usize];
        bits >>= 4;
    }
    output.write_all(&line)
}

fn put(answer: Result<f64, Refusal>, output: &mut impl Write) -> io::Result<()> {
    match answer {
        Ok(value) => put_value(value, output),
        Err(no) => put_refusal(no, output),
    }
}

/// As much of `room` as the input still has.
fn fill(room: &mut [u8], input: &mut impl Read) -> io::Result<usize> {
    let mut filled = 0;
    while filled < room.len() {
        match input.read(&mut room[filled..])? {
            0 => break,
            more => filled += more,
        }
    }
    Ok(filled)
}

fn read_image(input: &mut impl Read) -> io::Result<Vec<u8>> {
    let mut image = vec![0; HEADER];
    let mut filled = fill(&mut image, input)?;
    if filled == HEADER {
        let stated = ImageHeader::read(&image).length as usize;
        if (HEADER..=LONGEST).contains(&stated) {
            image.resize(stated, 0);
            filled += fill(&mut image[HEADER..], input)?;
        }
    }
    image.truncate(filled);
    Ok(image)
}

/// What the program `lookup` does.
pub fn lookup(input: impl Read, output: impl Write) -> io::Result<()> {
    let mut input = BufReader::with_capacity(BUFFER, input);
    let mut output = BufWriter::with_capacity(BUFFER, output);
    let ready = match load(&read_image(&mut input)?) {
        Ok(table) => Ready::new(table),
        Err(no) => {
            put(Err(no), &mut output)?;
            return output.flush();
        }
    };
    let mut room = [0; 33];
    let record = &mut room[..record_size(ready.table.axes)];
    for _ in 0..MOST_RECORDS {
        let filled = fill(record, &mut input)?;
        if filled < record.len() {
            if filled > 0 {
                put(Err(CUT), &mut output)?;
            }
            break;
        }
        put(ready.answer(record), &mut output)?;
    }
    output.flush()
}

/// The kind of a call, 9 to 12, of the fixed list.
fn kind(call: &Header) -> u8 {
    match call.op {
        9 => 2,
        10 if call.second == 0 => 3,
        10 => 4,
        11 => 0,
        _ => 1,
    }
}

fn read_table(call: &Header, input: &mut impl Read) -> io::Result<Ready> {
    let (nodes, values) = (call.third as u32 as usize, (call.third >> 32) as usize);
    let mut bytes = vec![0; 8 * (nodes + values)];
    input.read_exact(&mut bytes)?;
    let list = |count, bytes| read_numbers(count, count, bytes).expect("all numbers");
    let (nodes, rest) = list(nodes, &bytes);
    Ok(Ready::new(Table {
        axes: call.a,
        counts: [0, 16, 32, 48].map(|bits| (call.second >> bits) as u16),
        nodes,
        values: list(values, rest).0,
    }))
}

/// What the program `test_replay` does with a list of tables that fit, and of lookups in them.
pub fn judged(input: impl Read, output: impl Write) -> io::Result<()> {
    let mut input = BufReader::with_capacity(BUFFER, input);
    let mut output = BufWriter::with_capacity(BUFFER, output);
    let mut header = [0; CALL_HEADER];
    let mut ready = None;
    while fill(&mut header, &mut input)? == CALL_HEADER {
        let call = Header::read(&header).map_err(io::Error::other)?;
        if call.op == 8 {
            ready = Some(read_table(&call, &mut input)?);
            continue;
        }
        let ready: &Ready = ready.as_ref().expect("a table before the first call");
        let mut room = [0; 64];
        let bytes = &mut room[..8 * call.a as usize];
        input.read_exact(bytes)?;
        let room = numbers(bytes);
        let point = &room[..call.a as usize];
        put(ready.judged_answer(kind(&call), point), &mut output)?;
    }
    output.flush()
}
