use super::*;

/// Stand-in: the two fields that the strategies read. What rests on it: `grid[d]` holds
/// the nodes of axis d, and `values` has one axis for each of them, in the same order.
pub struct InterpDataNDBase<D: Data> {
    pub grid: Vec<Array1<D::Elem>>,
    pub values: ArrayD<D::Elem>,
}
