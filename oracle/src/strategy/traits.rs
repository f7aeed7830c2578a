use super::*;

/// Stand-in: of the trait of this name only what `n/strategies.rs` gives, with the same
/// signatures. `validate` accepts where a strategy does not say otherwise, as in ninterp.
pub trait StrategyND<D>
where
    D: Data + RawDataClone + Clone,
    D::Elem: PartialEq + Debug,
{
    fn validate(&self, _data: &InterpDataNDBase<D>) -> Result<(), ValidateError> {
        Ok(())
    }

    fn interpolate(
        &self,
        data: &InterpDataNDBase<D>,
        point: &[D::Elem],
    ) -> Result<D::Elem, InterpolateError>;

    fn allow_extrapolate(&self) -> bool;
}
