//! The roundings of document 01 that act on criteria 5 and 8, and the choice
//! of those that are left out.

use super::fraction::Fraction;

#[derive(Clone, Copy, Debug, PartialEq, Eq)]
pub enum Rounding {
    Kg,
    Kn,
    Km,
    Draught,
    Lw1,
    Lw2,
    B,
    C,
    Q,
    N,
    X1,
    X2,
    Index,
    K,
    S,
    P,
    R,
    Phi1,
    Start,
    End,
}

use Rounding::*;

pub const ROUNDINGS: [(Rounding, &str); 20] = [
    (Kg, "KG"),
    (Kn, "KN"),
    (Km, "KM"),
    (Draught, "d"),
    (Lw1, "lw1"),
    (Lw2, "lw2"),
    (B, "b"),
    (C, "C"),
    (Q, "q"),
    (N, "n"),
    (X1, "X1"),
    (X2, "X2"),
    (Index, "index"),
    (K, "k"),
    (S, "s"),
    (P, "p"),
    (R, "r"),
    (Phi1, "phi1"),
    (Start, "start"),
    (End, "end"),
];

/// The values that are kept exact; all others are rounded as document 01 says.
#[derive(Clone, Copy, Debug, PartialEq, Eq)]
pub struct Kept(u32);

impl Kept {
    pub const NONE: Kept = Kept(0);
    pub const ALL: Kept = Kept(u32::MAX);

    pub fn only(rounding: Rounding) -> Kept {
        Kept(1 << rounding as u32)
    }

    pub fn with(self, rounding: Rounding) -> Kept {
        Kept(self.0 | 1 << rounding as u32)
    }

    pub fn has(self, rounding: Rounding) -> bool {
        self.0 & (1 << rounding as u32) != 0
    }

    pub fn down(self, rounding: Rounding, value: Fraction) -> Fraction {
        if self.has(rounding) {
            value
        } else {
            value.down()
        }
    }

    pub fn up(self, rounding: Rounding, value: Fraction) -> Fraction {
        if self.has(rounding) {
            value
        } else {
            value.up()
        }
    }
}

/// Each rounding left out alone, then both of the angles' and then all.
pub fn choices() -> Vec<(&'static str, Kept)> {
    let mut choices: Vec<(&str, Kept)> = ROUNDINGS
        .iter()
        .map(|&(rounding, name)| (name, Kept::only(rounding)))
        .collect();
    choices.push(("angles", Kept::only(Start).with(End)));
    choices.push(("all", Kept::ALL));
    choices
}
