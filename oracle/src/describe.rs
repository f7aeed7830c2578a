//! Says where a program's lines first differ, with the image and the record.

use crate::header::read_numbers;
use crate::image::load::load;
use crate::program::{image_and_records, record_size, KINDS};
use crate::table::Table;

/// Tables with more values than this are shown without them.
const SHOWN: usize = 64;

fn numbers(list: &[f64]) -> String {
    let each = |x: &f64| format!("{:016x} ({x:e})", x.to_bits());
    list.iter().map(each).collect::<Vec<_>>().join(", ")
}

fn table(table: &Table) -> String {
    let mut text = format!("  axes {}, counts {:?}\n", table.axes, &*table.shape());
    for (axis, nodes) in table.grid().iter().enumerate() {
        text += &format!("  axis {axis}: {}\n", numbers(nodes));
    }
    match table.values.len() {
        0..=SHOWN => text + &format!("  values: {}\n", numbers(&table.values)),
        many => text + &format!("  {many} values\n"),
    }
}

fn record(table: &Table, records: &[u8], place: usize) -> String {
    let size = record_size(table.axes);
    let Some(record) = records.chunks(size).nth(place) else {
        return "  after the last record\n".into();
    };
    let kind = record[0];
    let name = KINDS.get(kind as usize).unwrap_or(&"unknown");
    if record.len() < size {
        return format!(
            "  record {place}: kind {kind}, cut after {} bytes\n",
            record.len()
        );
    }
    let axes = table.axes as usize;
    let (readings, _) = read_numbers(axes, axes, &record[1..]).expect("a whole record");
    format!(
        "  record {place}: kind {kind}, {name}, at {}\n",
        numbers(&readings)
    )
}

fn hex(bytes: &[u8]) -> String {
    bytes.iter().map(|byte| format!("{byte:02x}")).collect()
}

/// The line at a place, with its line feed where it has one; nothing past the last.
fn line_at(lines: &[u8], place: usize) -> String {
    let line = lines.split_inclusive(|&byte| byte == b'\n').nth(place);
    line.map_or("nothing".into(), |line| {
        format!("{:?}", String::from_utf8_lossy(line))
    })
}

/// The first line in which two texts differ.
pub fn first_unlike(wanted: &[u8], got: &[u8]) -> usize {
    let split = |lines| <[u8]>::split_inclusive(lines, |&byte: &u8| byte == b'\n');
    let pairs = split(wanted).zip(split(got));
    pairs.take_while(|(a, b)| a == b).count()
}

/// Records and lines are counted from 0.
pub fn difference(name: &str, input: &[u8], wanted: &str, got: &[u8], status: &[u8]) -> String {
    let wanted = wanted.as_bytes();
    let place = first_unlike(wanted, got);
    let (image, records) = image_and_records(input);
    let mut text = format!("run {name} differs at line {place}\n");
    match load(image) {
        Ok(loaded) => text += &(table(&loaded) + &record(&loaded, records, place)),
        Err(_) => {
            let header = hex(&image[..image.len().min(40)]);
            text += &format!("  image of {} bytes, header {header}\n", image.len());
        }
    }
    text += &format!("  wanted: {}\n", line_at(wanted, place));
    text += &format!("  printed: {}\n", line_at(got, place));
    if !status.is_empty() {
        let status = String::from_utf8_lossy(status);
        text += &format!("  the program ended with status {}\n", status.trim());
    }
    text
}
