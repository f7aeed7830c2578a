//! What the archive's calls give, laid out as in `include/ngamsothul.h`, and each as a `Result`.

use crate::axis::AxisLocation;
use crate::{Refusal, Shape};

#[repr(C)]
pub struct Answer {
    number: u32,
    axis: usize,
    place: usize,
    value: f64,
}

#[repr(C)]
pub struct IndexAnswer {
    answer: Answer,
    index: usize,
}

#[repr(C)]
pub struct ExactAnswer {
    answer: Answer,
    found: u32,
    index: usize,
}

#[repr(C)]
pub struct AxisAnswer {
    answer: Answer,
    between: u32,
    index: usize,
    fraction: f64,
}

/// Of a slice and of a load.
#[repr(C)]
pub struct ShapeAnswer {
    answer: Answer,
    shape: Shape,
}

#[repr(C)]
pub struct WriteAnswer {
    answer: Answer,
    length: usize,
}

impl Answer {
    pub fn judged(self) -> Result<f64, Refusal> {
        match self.number {
            0 => Ok(self.value),
            number => Err(Refusal { number, axis: self.axis, place: self.place }),
        }
    }
}

impl IndexAnswer {
    pub fn judged(self) -> Result<usize, Refusal> {
        self.answer.judged().map(|_| self.index)
    }
}

impl ExactAnswer {
    pub fn judged(self) -> Result<Option<usize>, Refusal> {
        self.answer.judged().map(|_| (self.found != 0).then_some(self.index))
    }
}

impl AxisAnswer {
    pub fn judged(self) -> Result<AxisLocation, Refusal> {
        self.answer.judged().map(|_| match self.between {
            0 => AxisLocation::Exact(self.index),
            _ => AxisLocation::Between { lower: self.index, frac: self.fraction },
        })
    }
}

impl ShapeAnswer {
    pub fn judged(self) -> Result<Shape, Refusal> {
        self.answer.judged().map(|_| self.shape)
    }
}

impl WriteAnswer {
    pub fn judged(self) -> Result<usize, Refusal> {
        self.answer.judged().map(|_| self.length)
    }
}
