//! A run of three axes, 2 x 3 x 2, and faults that are put into its image.

use super::{run, Run};
use crate::image::header::{Header, HEADER};
use crate::make::tables::with_values;

/// The bytes at which the axes start, the values start and the image ends.
pub const AXES: [usize; 3] = [40, 56, 80];
pub const VALUES: usize = 96;
pub const END: usize = 192;

pub fn sound() -> Run {
    let axes = [vec![0.0, 1.0], vec![-1.0, 0.0, 4.0], vec![10.0, 20.0]];
    let values = (0..12).map(|place| place as f64).collect();
    let table = with_values(&axes, values);
    run(&table, &[(0, &[0.5, 2.0, 12.5]), (3, &[0.5, 2.0, 12.5])])
}

/// Changes the header, and puts numbers at bytes of the image.
pub struct Fault {
    header: fn(&mut Header),
    numbers: Vec<(usize, f64)>,
}

pub fn in_header(header: fn(&mut Header)) -> Fault {
    Fault {
        header,
        numbers: Vec::new(),
    }
}

pub fn in_numbers(numbers: &[(usize, f64)]) -> Fault {
    Fault {
        header: |_| {},
        numbers: numbers.to_vec(),
    }
}

/// The sound run with some faults, in the order lent.
pub fn with(faults: &[&Fault]) -> Run {
    let mut run = sound();
    let mut header = Header::read(&run);
    for fault in faults {
        (fault.header)(&mut header);
        for (at, number) in &fault.numbers {
            run[*at..at + 8].copy_from_slice(&number.to_bits().to_le_bytes());
        }
    }
    run[..HEADER].copy_from_slice(&header.bytes());
    run
}
