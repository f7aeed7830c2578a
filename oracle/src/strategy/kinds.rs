use super::*;
use core::ops::Index;

/// Stand-ins: the four strategies as values. Only `Step` holds anything.
pub struct Linear;

pub struct LinearUniform;

pub struct Nearest;

pub struct Step {
    pub directions: Directions,
}

/// Stand-in for the Rust's own list of directions. What rests on it: `[d]` is the
/// direction of axis d; `validate_len` accepts one direction for each axis and nothing
/// else. One direction for all axes, which ninterp has too, is not imitated.
pub struct Directions(pub Vec<StepDirection>);

impl Directions {
    pub fn validate_len(
        &self,
        ndim: usize,
        _strategy: &str,
        _what: &str,
    ) -> Result<(), ValidateError> {
        if self.0.len() == ndim {
            Ok(())
        } else {
            Err(ValidateError::WrongLength)
        }
    }
}

impl Index<usize> for Directions {
    type Output = StepDirection;

    fn index(&self, d: usize) -> &StepDirection {
        &self.0[d]
    }
}
