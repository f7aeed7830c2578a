//! Damage to an image. Some of it leaves an image that loads.

use crate::image::header::{Header, HEADER};
use crate::make::numbers::{not_finite, Seed, LARGEST};

pub fn drawn(image: &mut [u8], seed: &mut Seed) {
    match seed.under(8) {
        0 => {
            let place = seed.under(HEADER);
            image[place] = seed.word() as u8;
        }
        1 => {
            let place = seed.under(image.len());
            image[place] ^= 1 << seed.under(8);
        }
        2 => field(image, 4, 4, 33, seed),
        3 => field(image, 16 + 4 * seed.under(5), 4, 17, seed),
        4 => field(image, 8 + 2 * seed.under(4), 2, 5, seed),
        5 => number(image, seed),
        6 => area(image, seed),
        _ => neighbours(image, seed),
    }
}

/// A field of so many bytes, moved by less than `bound` either way.
fn field(image: &mut [u8], at: usize, width: usize, bound: usize, seed: &mut Seed) {
    let mut bytes = [0; 4];
    bytes[..width].copy_from_slice(&image[at..at + width]);
    let up = seed.under(2) == 0;
    let by = 1 + seed.under(bound - 1) as u32;
    let moved = match up {
        true => u32::from_le_bytes(bytes).wrapping_add(by),
        false => u32::from_le_bytes(bytes).wrapping_sub(by),
    };
    image[at..at + width].copy_from_slice(&moved.to_le_bytes()[..width]);
}

/// The byte at which one of the numbers after the header starts, but for the last few.
fn place(image: &[u8], but: usize, seed: &mut Seed) -> usize {
    HEADER + 8 * seed.under((image.len() - HEADER) / 8 - but)
}

/// A node or value that is not finite, or as far away as can be.
fn number(image: &mut [u8], seed: &mut Seed) {
    let bad = [not_finite().as_slice(), &[LARGEST, -LARGEST]].concat();
    let at = place(image, 0, seed);
    let bits = bad[seed.under(bad.len())].to_bits();
    image[at..at + 8].copy_from_slice(&bits.to_le_bytes());
}

/// Two neighbours change places, or are made alike.
fn neighbours(image: &mut [u8], seed: &mut Seed) {
    let at = place(image, 1, seed);
    match seed.under(2) {
        0 => image[at..at + 16].rotate_left(8),
        _ => image.copy_within(at..at + 8, at + 8),
    }
}

/// An area of a good image is put beside another one, over it by 8 bytes, on its start or its
/// end, or anywhere in it.
fn area(image: &mut [u8], seed: &mut Seed) {
    let header = Header::read(image);
    let axes = header.axes as usize;
    let counts: Vec<u32> = header.counts[..axes].iter().map(|&n| n as u32).collect();
    let area = |number: usize| match number < axes {
        true => (header.offsets[number], 8 * counts[number]),
        false => (header.values, 8 * counts.iter().product::<u32>()),
    };
    let moved = seed.under(axes + 1);
    let other = (moved + 1 + seed.under(axes)) % (axes + 1);
    let ((_, size), (start, its)) = (area(moved), area(other));
    let at = match seed.under(7) {
        0 => start + its,
        1 => start.wrapping_sub(size),
        2 => start + its - 8,
        3 => (start + 8).wrapping_sub(size),
        4 => start,
        5 => (start + its).wrapping_sub(size),
        _ => start + 8 * seed.under(its as usize / 8) as u32,
    };
    let field = if moved < axes { 16 + 4 * moved } else { 32 };
    image[field..field + 4].copy_from_slice(&at.to_le_bytes());
}
