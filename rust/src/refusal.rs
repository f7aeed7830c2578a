//! What a refused call says: a number of the table of numbers, an axis and a place, and the same in words.

use crate::{FEWEST_NODES, HEADER_BYTES, MOST_AXES, MOST_BYTES, MOST_NODES, MOST_RECORDS, MOST_VALUES};
use core::fmt::{Display, Formatter, Result};

/// Why a call was refused, and where: a row of the README's table "Numbers". Axes and places are counted from 0. As text it is a sentence:
///
/// ```
/// let refusal = ngamsothul::Table::new(&[3], &[0.0, 2.0, 1.0], &[5.0, 6.0, 7.0]).linear(&[0.5]).unwrap_err();
/// assert_eq!((refusal.number, refusal.axis, refusal.place), (5, 0, 2));
/// assert_eq!(refusal.to_string(), "node 2 of axis 0 is not above the one before");
/// ```
#[derive(Clone, Copy, Debug, PartialEq, Eq, Hash)]
pub struct Refusal {
    /// The number that the technician sees, never 0.
    pub number: u32,
    /// The axis at fault, or 0; of 14 and 18 the number of an area.
    pub axis: usize,
    /// The place at fault: a node, a value, a byte, or what the number says of it.
    pub place: usize,
}

impl core::error::Error for Refusal {}

impl Display for Refusal {
    fn fmt(&self, f: &mut Formatter<'_>) -> Result {
        match self.number {
            1..=3 => self.sizes(f),
            4..=8 => self.contents(f),
            9..=12 => self.readings(f),
            13 => self.header(f),
            14 => self.area(f),
            15..=17 => self.outputs(f),
            18 => self.shared(f),
            _ => self.bare(f),
        }
    }
}

impl Refusal {
    /// 1 to 3.
    fn sizes(&self, f: &mut Formatter<'_>) -> Result {
        match (self.number, self.axis, self.place) {
            (1, ..) => write!(f, "the table does not have 1 to {MOST_AXES} axes"),
            (2, _, 1) => write!(f, "the lower index is not below the number of nodes less 1"),
            (2, 0, _) => {
                write!(f, "axis 0 does not have {FEWEST_NODES} to {MOST_NODES} nodes, or the table has more than {MOST_VALUES} values")
            }
            (2, axis, _) => write!(f, "axis {axis} does not have {FEWEST_NODES} to {MOST_NODES} nodes"),
            (3, _, 0) => write!(f, "there are not as many nodes as the counts say"),
            (3, _, 1) => write!(f, "there are not as many values as the counts say"),
            (3, _, 2) => write!(f, "there is not one reading for each axis"),
            (3, _, 3) => write!(f, "there is not one direction for each axis"),
            _ => self.bare(f),
        }
    }

    /// 4 to 8. No interval 0 is told, since the others are held to it: 8, 0, 0 is a lent step or tolerance.
    fn contents(&self, f: &mut Formatter<'_>) -> Result {
        match (self.number, self.axis, self.place) {
            (4, axis, node) => write!(f, "node {node} of axis {axis} is not a finite number"),
            (5, axis, node) => write!(f, "node {node} of axis {axis} is not above the one before"),
            (6, axis, node) => write!(f, "node {node} of axis {axis} is so far above the one before that their difference is not finite"),
            (7, _, place) => write!(f, "value {place} is not a finite number"),
            (8, 0, 0) => write!(f, "the step is not a finite number above 0, or the tolerance is not a finite number from 0 on"),
            (8, axis, interval) => write!(f, "axis {axis} is not uniform: its interval {interval} is not as wide as its first"),
            _ => self.bare(f),
        }
    }

    /// 9 to 12.
    fn readings(&self, f: &mut Formatter<'_>) -> Result {
        match (self.number, self.axis, self.place) {
            (9, axis, _) => write!(f, "the direction of axis {axis} is neither lower nor upper"),
            (10, axis, _) => write!(f, "the reading of axis {axis} is not a finite number"),
            (11, axis, 0) => write!(f, "the reading of axis {axis} is below its first node"),
            (11, axis, 1) => write!(f, "the reading of axis {axis} is above its last node"),
            (12, _, 0) => write!(f, "the result, or value 0 of the slice, is not a finite number"),
            (12, _, place) => write!(f, "value {place} of the slice is not a finite number"),
            _ => self.bare(f),
        }
    }

    /// 13, by the first byte of the field.
    fn header(&self, f: &mut Formatter<'_>) -> Result {
        match self.place {
            0 => write!(f, "the image has fewer than {HEADER_BYTES} bytes, or its byte 0 is not 1"),
            2 => write!(f, "bytes 2 and 3 of the image are not zero"),
            4 => write!(f, "the length at byte 4 of the image is not the image's own, or not {HEADER_BYTES} to {MOST_BYTES}"),
            8 | 10 | 12 | 14 => write!(f, "the unused count at byte {} of the image is not zero", self.place),
            16 | 20 | 24 | 28 => write!(f, "the unused offset at byte {} of the image is not zero", self.place),
            36 => write!(f, "bytes 36 to 39 of the image are not zero"),
            _ => self.bare(f),
        }
    }

    /// 14. The values' area has the number of axes, so axis 0 is never theirs, and 4 always is.
    fn area(&self, f: &mut Formatter<'_>) -> Result {
        match self.axis {
            0 => write!(f, "the nodes of axis 0")?,
            MOST_AXES => write!(f, "the values")?,
            axis if axis < MOST_AXES => write!(f, "the nodes of axis {axis}, or the values if there is no axis {axis},")?,
            _ => return self.bare(f),
        }
        write!(f, " do not begin at a multiple of 8 from byte {HEADER_BYTES} on, or end outside the image")
    }

    /// 15 to 17.
    fn outputs(&self, f: &mut Formatter<'_>) -> Result {
        match (self.number, self.place) {
            (15, 0) => write!(f, "the room for the nodes is too short"),
            (15, 1) => write!(f, "the room for the values is too short"),
            (15, 2) => write!(f, "the room for the image is too short"),
            (16, _) => {
                write!(f, "this axis cannot be sliced away: there is no such axis, or no other one, or the rule slices axis 0 alone")
            }
            (17, _) => write!(f, "the tally has {MOST_RECORDS} records already, and counts no more"),
            _ => self.bare(f),
        }
    }

    /// 18. The first area, the lower one, is always an axis's; the second is the values' where it is the number of axes, as 4 always is.
    fn shared(&self, f: &mut Formatter<'_>) -> Result {
        match (self.axis, self.place) {
            (axis, other) if axis >= other || other > MOST_AXES => self.bare(f),
            (axis, MOST_AXES) => write!(f, "the nodes of axis {axis} share a byte of the image with the values"),
            (axis, other) => {
                write!(f, "the nodes of axis {axis} share a byte of the image with those of axis {other}")?;
                write!(f, ", or with the values if there is no axis {other}")
            }
        }
    }

    /// What no call gives.
    fn bare(&self, f: &mut Formatter<'_>) -> Result {
        write!(f, "refusal {}, axis {}, place {}", self.number, self.axis, self.place)
    }
}
