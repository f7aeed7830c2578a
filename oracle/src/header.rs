//! The header of a record and the numbers that may follow it; see README.md.

pub const HEADER: usize = 32;

#[derive(Default, PartialEq)]
pub struct Header {
    pub op: u8,
    pub a: u8,
    pub b: u8,
    pub reading: u64,
    pub second: u64,
    pub third: u64,
}

impl Header {
    pub fn bytes(&self) -> [u8; HEADER] {
        let mut bytes = [0; HEADER];
        bytes[0] = self.op;
        bytes[1] = self.a;
        bytes[2] = self.b;
        bytes[8..16].copy_from_slice(&self.reading.to_le_bytes());
        bytes[16..24].copy_from_slice(&self.second.to_le_bytes());
        bytes[24..32].copy_from_slice(&self.third.to_le_bytes());
        bytes
    }

    pub fn read(bytes: &[u8]) -> Result<Header, String> {
        if bytes.len() < HEADER {
            return Err("a record ends early".into());
        }
        if bytes[3..8] != [0; 5] {
            return Err("bytes 3 to 7 of a record are not zero".into());
        }
        Ok(Header {
            op: bytes[0],
            a: bytes[1],
            b: bytes[2],
            reading: word(&bytes[8..16]),
            second: word(&bytes[16..24]),
            third: word(&bytes[24..32]),
        })
    }
}

fn word(bytes: &[u8]) -> u64 {
    u64::from_le_bytes(bytes.try_into().expect("eight bytes"))
}

/// Numbers that follow a header, and what lies after them.
pub type Numbers<'a> = Result<(Vec<f64>, &'a [u8]), String>;

pub fn read_numbers(count: usize, most: usize, bytes: &[u8]) -> Numbers<'_> {
    if count > most || bytes.len() < 8 * count {
        return Err("more numbers than a record may have, or than there are".into());
    }
    let (area, rest) = bytes.split_at(8 * count);
    let numbers = area.chunks(8).map(|b| f64::from_bits(word(b))).collect();
    Ok((numbers, rest))
}

pub fn write_numbers(numbers: &[f64], out: &mut Vec<u8>) {
    for number in numbers {
        out.extend(number.to_bits().to_le_bytes());
    }
}
