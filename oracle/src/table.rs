//! A table as it is lent: nothing about it is known to fit.

use ninterp::per_axis::PerAxis;

#[derive(Clone, Default)]
pub struct Table {
    pub axes: u8,
    /// Those past the axes are not looked at.
    pub counts: [u16; 4],
    /// Flat, axis after axis.
    pub nodes: Vec<f64>,
    /// Flat, last axis fastest.
    pub values: Vec<f64>,
}

impl Table {
    /// The counts of the axes; of a table with 1 to 4 axes.
    pub fn shape(&self) -> PerAxis<usize> {
        let counts = &self.counts[..self.axes as usize];
        counts.iter().map(|&count| count as usize).collect()
    }

    /// The nodes of each axis; of a table whose nodes are as many as its counts say.
    pub fn grid(&self) -> PerAxis<&[f64]> {
        let mut rest = self.nodes.as_slice();
        let mut grid = PerAxis::default();
        for count in self.shape() {
            let (axis, others) = rest.split_at(count);
            grid.push(axis);
            rest = others;
        }
        grid
    }
}
