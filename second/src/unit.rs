//! The unit that KG is carried in. GM, g, y, every area and every limit of
//! one go with it; KN, KM, d and the wind levers keep millimetres and are
//! raised to it where they meet.

#[cfg(test)]
mod tests;

/// So many parts of a millimetre.
#[derive(Clone, Copy, Debug, PartialEq)]
pub struct Unit {
    parts: i128,
}

/// Request 5: the unit of every judgement.
pub const TENTHS: Unit = Unit { parts: 10 };

/// Document 01's own, by which the corpus finds the ships that request 5 is
/// about.
pub const MILLIMETRES: Unit = Unit { parts: 1 };

impl Unit {
    /// What has been said in millimetres, in this unit.
    pub const fn of(self, millimetres: i128) -> i128 {
        self.parts * millimetres
    }
}
