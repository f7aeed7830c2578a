//! The four table rules, as a lookup or a slice names them.

#[derive(Clone)]
pub enum Rule {
    Nearest,
    /// The lent directions, a byte each; neither they nor their number need fit.
    Step(Vec<u8>),
    Linear,
    LinearUniform,
}

impl Rule {
    pub fn number(&self) -> u8 {
        match self {
            Rule::Nearest => 0,
            Rule::Step(_) => 1,
            Rule::Linear => 2,
            Rule::LinearUniform => 3,
        }
    }

    /// Lent to Step alone; for the others none.
    pub fn directions(&self) -> &[u8] {
        match self {
            Rule::Step(directions) => directions,
            _ => &[],
        }
    }

    /// Whether a slice by this rule removes axis 0 and no other.
    pub fn is_linear(&self) -> bool {
        matches!(self, Rule::Linear | Rule::LinearUniform)
    }
}
