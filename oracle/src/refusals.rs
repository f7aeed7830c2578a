//! The refusals of document 01, section "Numbers the technician sees", for the seven
//! axis primitives; those of tables are in `table_refusals`. Written from that document
//! alone; nothing here calls the Rust.

#[derive(Clone, Copy)]
pub struct Refusal {
    pub number: u8,
    pub axis: u8,
    pub place: usize,
}

impl Refusal {
    /// The same of another axis.
    pub fn on_axis(self, axis: usize) -> Refusal {
        Refusal {
            axis: axis as u8,
            ..self
        }
    }
}

/// The primitives know one axis, so every refusal names axis 0.
fn refuse(number: u8, place: usize) -> Result<(), Refusal> {
    Err(Refusal {
        number,
        axis: 0,
        place,
    })
}

/// 2 for the count, then 4, 5, 6 at each node in turn.
pub fn nodes(nodes: &[f64]) -> Result<(), Refusal> {
    count(nodes.len())?;
    for (place, &node) in nodes.iter().enumerate() {
        if !node.is_finite() {
            return refuse(4, place);
        }
        if place == 0 {
            continue;
        }
        let before = nodes[place - 1];
        if node <= before {
            return refuse(5, place);
        }
        if !(node - before).is_finite() {
            return refuse(6, place);
        }
    }
    Ok(())
}

pub fn count(n: usize) -> Result<(), Refusal> {
    if (2..=64).contains(&n) {
        Ok(())
    } else {
        refuse(2, 0)
    }
}

/// The lent lower index of `exact_index`, on an axis whose count is already good.
pub fn lower_index(lower: u64, count: usize) -> Result<(), Refusal> {
    if lower < count as u64 - 1 {
        Ok(())
    } else {
        refuse(2, 1)
    }
}

pub fn first_node(node: f64) -> Result<(), Refusal> {
    if node.is_finite() {
        Ok(())
    } else {
        refuse(4, 0)
    }
}

pub fn step(step: f64) -> Result<(), Refusal> {
    if step.is_finite() && step > 0.0 {
        Ok(())
    } else {
        refuse(8, 0)
    }
}

/// Minus zero is not below 0.
pub fn tolerance(tolerance: f64) -> Result<(), Refusal> {
    if tolerance.is_finite() && tolerance >= 0.0 {
        Ok(())
    } else {
        refuse(8, 0)
    }
}

pub fn direction(direction: u8) -> Result<(), Refusal> {
    if direction <= 1 {
        Ok(())
    } else {
        refuse(9, 0)
    }
}

pub fn reading(reading: f64) -> Result<(), Refusal> {
    if reading.is_finite() {
        Ok(())
    } else {
        refuse(10, 0)
    }
}

/// The last check of `locate_axis`, of a lookup and, at each place, of a slice.
pub fn result(result: f64, place: usize) -> Result<(), Refusal> {
    if result.is_finite() {
        Ok(())
    } else {
        refuse(12, place)
    }
}

/// The interval that the Rust's uniform check names.
pub fn not_uniform(interval: usize) -> Result<(), Refusal> {
    refuse(8, interval)
}
