//! Request C-12: areas that touch, and areas that share bytes. After the header each number is
//! one more than the one before it, so that what lies in an area is good wherever it is put.

use super::{each_kind, Run};
use crate::header::write_numbers;
use crate::image::header::{Header, HEADER};

const COUNTS: [u16; 4] = [3, 2, 4, 2];

/// The bytes of each area of so many axes, the values last.
fn sizes(axes: usize) -> Vec<i32> {
    let counts = COUNTS[..axes].iter().map(|&count| count as i32);
    let values = counts.clone().product();
    counts.chain([values]).map(|count| 8 * count).collect()
}

/// With the areas at these places after the header, and a record of each kind, read in the
/// first cells.
fn run(places: &[i32]) -> Run {
    let axes = places.len() - 1;
    let ends = places
        .iter()
        .zip(sizes(axes))
        .map(|(place, size)| place + size);
    let length = ends.max().expect("an area") as usize;
    let (mut counts, mut offsets) = ([0; 4], [0; 4]);
    counts[..axes].copy_from_slice(&COUNTS[..axes]);
    let starts: Vec<u32> = places
        .iter()
        .map(|place| (HEADER as i32 + place) as u32)
        .collect();
    offsets[..axes].copy_from_slice(&starts[..axes]);
    let header = Header {
        one: 1,
        axes: axes as u8,
        zero: 0,
        length: (HEADER + length) as u32,
        counts,
        offsets,
        values: starts[axes],
        end: 0,
    };
    let mut run = header.bytes();
    let numbers: Vec<f64> = (0..length / 8).map(|place| place as f64).collect();
    write_numbers(&numbers, &mut run);
    let point: Vec<f64> = places[..axes]
        .iter()
        .map(|place| (place / 8) as f64 + 0.5)
        .collect();
    each_kind(&point, &mut run);
    run
}

/// How far a second area may start from a first: right after it and right before it, which
/// alone is allowed; over its end or its start by 8 bytes, with it, to its end, inside.
fn distances(size: i32, its: i32) -> Vec<i32> {
    let inside = 8 * (size - its).signum();
    let mut distances = vec![size, -its, size - 8, 8 - its, 0, size - its, inside];
    distances.sort();
    distances.dedup();
    distances
}

/// Two areas so far from each other, the others apart.
fn two(axes: usize, one: usize, other: usize) -> Vec<Run> {
    let sizes = sizes(axes);
    let placed = |distance: i32| {
        let mut places = vec![0; axes + 1];
        places[one] = 0.max(-distance);
        places[other] = 0.max(distance);
        let mut at = (places[one] + sizes[one]).max(places[other] + sizes[other]) + 8;
        for area in (0..=axes).filter(|&area| area != one && area != other) {
            places[area] = at;
            at += sizes[area] + 8;
        }
        run(&places)
    };
    let distances = distances(sizes[one], sizes[other]);
    distances.into_iter().map(placed).collect()
}

/// Each area starts so many bytes before the end of the one before it.
fn chain(order: &[usize], by: i32) -> Run {
    let sizes = sizes(order.len() - 1);
    let mut places = vec![0; order.len()];
    let mut at = 0;
    for &area in order {
        places[area] = at;
        at += sizes[area] - by;
    }
    run(&places)
}

/// Two pairs of areas of four axes, each pair from one byte on: the lower is told.
fn two_pairs() -> Vec<Run> {
    let sizes = sizes(4);
    let mut runs = Vec::new();
    for alone in 0..5 {
        let paired: Vec<usize> = (0..5).filter(|&area| area != alone).collect();
        for with_first in 1..4 {
            let mut places = [0; 5];
            places[alone] = sizes[4];
            for (place, &area) in paired.iter().enumerate() {
                let first = place == 0 || place == with_first;
                places[area] = if first { 0 } else { 2 * sizes[4] };
            }
            runs.push(run(&places));
        }
    }
    runs
}

pub fn runs() -> Vec<Run> {
    let mut runs = Vec::new();
    for axes in 1..=4 {
        for one in 0..axes {
            for other in one + 1..=axes {
                runs.extend(two(axes, one, other));
            }
        }
    }
    for axes in 2..=4 {
        runs.push(run(&vec![0; axes + 1]));
    }
    for order in [
        [0, 1, 2, 3, 4],
        [4, 3, 2, 1, 0],
        [2, 4, 0, 3, 1],
        [1, 3, 4, 2, 0],
    ] {
        runs.extend([0, 8, 16].map(|by| chain(&order, by)));
    }
    runs.extend(two_pairs());
    runs
}
