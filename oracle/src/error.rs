/// Stand-in: the one case that `utils.rs` builds, and one for the number of directions.
#[derive(Debug)]
pub enum ValidateError {
    NonUniform { dim: usize, index: usize },
    WrongLength,
}

/// Stand-in: none of the four strategies builds one.
#[derive(Debug)]
pub enum InterpolateError {}
