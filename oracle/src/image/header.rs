//! The 40 bytes of an image's header, field by field; nothing about them is known to fit.

pub const HEADER: usize = 40;

/// The most bytes that an image may have.
pub const LONGEST: usize = 36_864;

#[derive(Clone)]
pub struct Header {
    /// Byte 0.
    pub one: u8,
    pub axes: u8,
    /// Bytes 2-3.
    pub zero: u16,
    pub length: u32,
    pub counts: [u16; 4],
    pub offsets: [u32; 4],
    pub values: u32,
    /// Bytes 36-39.
    pub end: u32,
}

fn word(bytes: &[u8], at: usize) -> u32 {
    u32::from_le_bytes(bytes[at..at + 4].try_into().expect("four bytes"))
}

fn half(bytes: &[u8], at: usize) -> u16 {
    u16::from_le_bytes([bytes[at], bytes[at + 1]])
}

impl Header {
    /// Of 40 bytes or more.
    pub fn read(bytes: &[u8]) -> Header {
        Header {
            one: bytes[0],
            axes: bytes[1],
            zero: half(bytes, 2),
            length: word(bytes, 4),
            counts: [8, 10, 12, 14].map(|at| half(bytes, at)),
            offsets: [16, 20, 24, 28].map(|at| word(bytes, at)),
            values: word(bytes, 32),
            end: word(bytes, 36),
        }
    }

    pub fn bytes(&self) -> Vec<u8> {
        let mut bytes = vec![self.one, self.axes];
        bytes.extend(self.zero.to_le_bytes());
        bytes.extend(self.length.to_le_bytes());
        bytes.extend(self.counts.iter().flat_map(|count| count.to_le_bytes()));
        bytes.extend(self.offsets.iter().flat_map(|offset| offset.to_le_bytes()));
        bytes.extend(self.values.to_le_bytes());
        bytes.extend(self.end.to_le_bytes());
        bytes
    }
}
