//! The sentence of every refusal in the table of numbers.

use ngamsothul::Refusal;
use std::collections::HashSet;

const SENTENCES: [(u32, usize, usize, &str); 44] = [
    (1, 0, 0, "the table does not have 1 to 4 axes"),
    (2, 0, 0, "axis 0 does not have 2 to 64 nodes, or the table has more than 4096 values"),
    (2, 3, 0, "axis 3 does not have 2 to 64 nodes"),
    (2, 0, 1, "the lower index is not below the number of nodes less 1"),
    (3, 0, 0, "there are not as many nodes as the counts say"),
    (3, 0, 1, "there are not as many values as the counts say"),
    (3, 0, 2, "there is not one reading for each axis"),
    (3, 0, 3, "there is not one direction for each axis"),
    (4, 1, 7, "node 7 of axis 1 is not a finite number"),
    (5, 0, 4, "node 4 of axis 0 is not above the one before"),
    (6, 2, 1, "node 1 of axis 2 is so far above the one before that their difference is not finite"),
    (7, 0, 4095, "value 4095 is not a finite number"),
    (8, 0, 0, "the step is not a finite number above 0, or the tolerance is not a finite number from 0 on"),
    (8, 0, 1, "axis 0 is not uniform: its interval 1 is not as wide as its first"),
    (8, 3, 62, "axis 3 is not uniform: its interval 62 is not as wide as its first"),
    (9, 1, 0, "the direction of axis 1 is neither lower nor upper"),
    (10, 2, 0, "the reading of axis 2 is not a finite number"),
    (11, 0, 0, "the reading of axis 0 is below its first node"),
    (11, 0, 1, "the reading of axis 0 is above its last node"),
    (12, 0, 0, "the result, or value 0 of the slice, is not a finite number"),
    (12, 0, 5, "value 5 of the slice is not a finite number"),
    (13, 0, 0, "the image has fewer than 40 bytes, or its byte 0 is not 1"),
    (13, 0, 2, "bytes 2 and 3 of the image are not zero"),
    (13, 0, 4, "the length at byte 4 of the image is not the image's own, or not 40 to 36864"),
    (13, 0, 10, "the unused count at byte 10 of the image is not zero"),
    (13, 0, 12, "the unused count at byte 12 of the image is not zero"),
    (13, 0, 14, "the unused count at byte 14 of the image is not zero"),
    (13, 0, 20, "the unused offset at byte 20 of the image is not zero"),
    (13, 0, 24, "the unused offset at byte 24 of the image is not zero"),
    (13, 0, 28, "the unused offset at byte 28 of the image is not zero"),
    (13, 0, 36, "bytes 36 to 39 of the image are not zero"),
    (14, 0, 0, "the nodes of axis 0 do not begin at a multiple of 8 from byte 40 on, or end outside the image"),
    (
        14,
        2,
        0,
        "the nodes of axis 2, or the values if there is no axis 2, do not begin at a multiple of 8 from byte 40 on, or end outside the image",
    ),
    (14, 4, 0, "the values do not begin at a multiple of 8 from byte 40 on, or end outside the image"),
    (15, 0, 0, "the room for the nodes is too short"),
    (15, 0, 1, "the room for the values is too short"),
    (15, 0, 2, "the room for the image is too short"),
    (16, 0, 0, "this axis cannot be sliced away: there is no such axis, or no other one, or the rule slices axis 0 alone"),
    (17, 0, 0, "the tally has 1000000 records already, and counts no more"),
    (18, 0, 1, "the nodes of axis 0 share a byte of the image with those of axis 1, or with the values if there is no axis 1"),
    (18, 0, 3, "the nodes of axis 0 share a byte of the image with those of axis 3, or with the values if there is no axis 3"),
    (18, 1, 2, "the nodes of axis 1 share a byte of the image with those of axis 2, or with the values if there is no axis 2"),
    (18, 0, 4, "the nodes of axis 0 share a byte of the image with the values"),
    (18, 3, 4, "the nodes of axis 3 share a byte of the image with the values"),
];

#[test]
fn sentences() {
    for (number, axis, place, sentence) in SENTENCES {
        assert_eq!(Refusal { number, axis, place }.to_string(), sentence);
    }
}

/// Every number has a sentence, and no two cases share one.
#[test]
fn every_number_has_its_own() {
    let numbers: HashSet<u32> = SENTENCES.iter().map(|case| case.0).collect();
    assert_eq!(numbers, (1..=18).collect());
    let sentences: HashSet<&str> = SENTENCES.iter().map(|case| case.3).collect();
    assert_eq!(sentences.len(), SENTENCES.len());
}

const NOT_GIVEN: [(u32, usize, usize); 13] = [
    (0, 1, 2),
    (3, 0, 4),
    (11, 0, 2),
    (13, 0, 5),
    (14, 5, 0),
    (15, 0, 3),
    (18, 0, 0),
    (18, 2, 1),
    (18, 4, 4),
    (18, 3, 5),
    (18, 4, 5),
    (19, 0, 1),
    (u32::MAX, usize::MAX, usize::MAX),
];

/// What no call gives is told by its numbers, and a refusal is an error as Rust has them.
#[test]
fn others() {
    for (number, axis, place) in NOT_GIVEN {
        let error: Box<dyn std::error::Error> = Refusal { number, axis, place }.into();
        assert_eq!(error.to_string(), format!("refusal {number}, axis {axis}, place {place}"));
    }
}
