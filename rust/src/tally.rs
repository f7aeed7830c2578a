//! The coverage tally.

use crate::{ffi, Refusal, Table, MOST_AXES, MOST_CELLS};

/// There is a place for each number from 0 to 20.
const NUMBERS: usize = 21;

/// Which cells the readings of a table's records fall into, and why records are refused: how many records were counted, how many of them
/// fell into each cell of each axis, and how many were refused by each number.
///
/// ```
/// use ngamsothul::{Table, Tally};
///
/// let table = Table::new(&[3], &[0.0, 2.0, 4.0], &[10.0, 20.0, 25.0]);
/// let mut tally = Tally::new();
/// for reading in [0.5f64, 2.0, 3.0, 9.0] {
///     let mut record = [0; 9]; // kind 0, Linear
///     record[1..].copy_from_slice(&reading.to_le_bytes());
///     tally.count_record(&table, &record)?;
/// }
/// assert_eq!((tally.cell(0, 0), tally.cell(0, 1)), (Some(2), Some(1)));
/// assert_eq!((tally.number(11), tally.records()), (Some(1), 4));
/// # Ok::<(), ngamsothul::Refusal>(())
/// ```
#[repr(C)]
#[derive(Clone, Debug, PartialEq, Eq)]
pub struct Tally {
    records: u32,
    cells: [[u32; MOST_CELLS]; MOST_AXES],
    numbers: [u32; NUMBERS],
}

impl Tally {
    /// No record was counted.
    pub const fn new() -> Tally {
        Tally { records: 0, cells: [[0; MOST_CELLS]; MOST_AXES], numbers: [0; NUMBERS] }
    }

    /// How many records were counted, refused ones too.
    pub fn records(&self) -> u32 {
        self.records
    }

    /// How many of the records that were answered had their reading on this axis in this cell. None where no table has such a cell: a
    /// tally has 4 axes of 63 cells, those that its tables do not have at 0.
    pub fn cell(&self, axis: usize, cell: usize) -> Option<u32> {
        self.cells.get(axis)?.get(cell).copied()
    }

    /// How many records were refused by this number. None where it is no number of a refusal, which are 1 to 20.
    pub fn number(&self, number: u32) -> Option<u32> {
        match number {
            0 => None,
            number => self.numbers.get(number as usize).copied(),
        }
    }

    /// Counts one record of a table: a kind byte (0 Linear, 1 LinearUniform, 2 Nearest, 3 Step all lower, 4 Step all upper) and a reading
    /// for each axis, an f64 of 8 bytes, little-endian.
    ///
    /// Where the lookup answers it, it counts on each axis in the cell that [`locate_lower_index`](crate::axis::locate_lower_index) names,
    /// whatever its kind: a reading on a node in the cell below that node, on the first node in cell 0. Where the lookup refuses it, for
    /// its own sake (3 of another length, 9 of an unknown kind, 8, 10, 11, 12) or for the table's (1 to 7), it counts under that number,
    /// and that too is `Ok`. A count that stands at `u32::MAX` stays there.
    ///
    /// Refusals: 17 where [`MOST_RECORDS`](crate::MOST_RECORDS) were counted already; the tally is then as it was.
    pub fn count_record(&mut self, table: &Table<'_>, record: &[u8]) -> Result<(), Refusal> {
        ffi::count_record(self, table, record).judged().map(drop)
    }
}

impl Default for Tally {
    fn default() -> Tally {
        Tally::new()
    }
}
