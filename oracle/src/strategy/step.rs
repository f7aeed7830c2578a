/// Stand-in: the two cases that `utils.rs` names, nothing more.
#[derive(Clone, Copy)]
pub enum StepDirection {
    Lower,
    Upper,
}
